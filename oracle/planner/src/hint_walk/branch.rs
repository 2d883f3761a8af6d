//! The branches of the search for hints that RULES, section 10, names.

use super::near::{LineEnd, NeverNear, NeverThere};
use Branch::*;

#[derive(Clone, Copy, Debug, PartialEq, Eq, PartialOrd, Ord)]
pub enum Branch {
    AgentHardlyMoves,
    NoTrajectory,
    ObstacleApart,
    LegApart,
    /// The leg is never near the agent's line (RULES 10.9).
    NoObstruction(NeverNear),
    /// It is, and at the line's end (RULES 10.35).
    Obstruction(LineEnd),
    LegWithoutDirection,
    /// The agent is never near the leg's line (RULES 10.11).
    NoWaitingPlace(NeverNear),
    WaitBeforeStart,
    ComesTooLate,
    CrossedFromLeft,
    CrossedFromRight,
    Against,
    EndsBeforeStart,
    Outpaced,
    Follows,
    Stands,
    SeenAtAgentsStart,
    SeenAtOwnStart,
    TooNear,
    Behind,
    WithinFollowDistance,
    CaughtUp,
    FarAhead,
    OneRound,
    FewRounds,
    ManyRounds,
    LineReached,
    LegOver,
    LineReachedAndLegOver,
    NeverAtPlace(NeverThere),
    FirstEndAside,
    SecondEndAside,
    BothEndsAside,
    BothEndsPassed,
    FirstEndAlone,
    SecondEndAlone,
    FirstEndSooner,
    SecondEndSooner,
    EndsLevel,
    OncomingAside,
    OncomingPassed,
    OncomingHint,
    RoundStrayed,
    PlaceStrayed,
    Full,
}

impl Branch {
    /// Each with its rule, in two digits, and what happens. All but three that never come: a
    /// crossing's times past 2^53 ns (RULES 10.12), since a leg that goes across at 1e-4 m/s or more
    /// is near a place within 4,000,000 s of its times; a first wait past 2^53 ns (RULES 10.19),
    /// since F is at most 400 m and the leg goes at more than 1e-2 m/s; and x below 0 (RULES 10.20),
    /// since s0 is above F there.
    pub const ALL: [(Branch, &'static str); 56] = [
        (AgentHardlyMoves, "10.01 the agent hardly moves: no hints"),
        (NoTrajectory, "10.03 an obstacle without a trajectory"),
        (ObstacleApart, "10.03 an obstacle's box apart"),
        (LegApart, "10.03 a leg's box apart"),
        (
            NoObstruction(NeverNear::HardlyAcross),
            "10.09 the leg hardly goes across (10.31)",
        ),
        (
            NoObstruction(NeverNear::Far),
            "10.09 the leg is never near the line (10.32)",
        ),
        (
            NoObstruction(NeverNear::OnlyAfter),
            "10.09 the leg would be near the line after its end (10.33)",
        ),
        (
            NoObstruction(NeverNear::OnlyBefore),
            "10.09 the leg was near the line before its start (10.34)",
        ),
        (
            Obstruction(LineEnd::NotPast),
            "10.35 the leg near the line is not past its end",
        ),
        (
            Obstruction(LineEnd::Missed),
            "10.35 past the line's end, and never near it",
        ),
        (
            Obstruction(LineEnd::AsLong),
            "10.35 past the line's end, and near it as long",
        ),
        (
            Obstruction(LineEnd::Cut),
            "10.35 past the line's end, and cut",
        ),
        (
            LegWithoutDirection,
            "10.10 the leg has no direction: refused 4",
        ),
        (
            NoWaitingPlace(NeverNear::HardlyAcross),
            "10.11 the agent hardly goes across the leg's line (10.31)",
        ),
        (
            NoWaitingPlace(NeverNear::Far),
            "10.11 the agent is never near the leg's line (10.32)",
        ),
        (
            NoWaitingPlace(NeverNear::OnlyAfter),
            "10.11 the agent would be near the leg's line later (10.33)",
        ),
        (
            NoWaitingPlace(NeverNear::OnlyBefore),
            "10.11 the agent was near the leg's line before (10.34)",
        ),
        (
            WaitBeforeStart,
            "10.11 the agent starts near the leg's line",
        ),
        (ComesTooLate, "10.13 the agent comes when the leg has left"),
        (CrossedFromLeft, "10.13 a hint for a leg from the left"),
        (CrossedFromRight, "10.13 a hint for a leg from the right"),
        (Against, "10.15 oncoming: the leg goes against the agent"),
        (
            EndsBeforeStart,
            "10.15 oncoming: the leg ends before the agent starts",
        ),
        (Outpaced, "10.15 no part: the leg is as fast as the agent"),
        (Follows, "10.15 following"),
        (Stands, "10.15 standing"),
        (SeenAtAgentsStart, "10.16 first seen when the agent starts"),
        (SeenAtOwnStart, "10.16 first seen when the leg starts"),
        (TooNear, "10.17 too near"),
        (Behind, "10.17 behind the agent"),
        (
            WithinFollowDistance,
            "10.19 a hint at the start, within the follow distance",
        ),
        (CaughtUp, "10.20 a hint where the agent has caught up"),
        (FarAhead, "10.21 far enough ahead"),
        (OneRound, "10.22 one round"),
        (FewRounds, "10.22 2 to 9 rounds"),
        (ManyRounds, "10.22 10 rounds or more"),
        (LineReached, "10.22 rounds that end with the line"),
        (LegOver, "10.22 rounds that end with the leg"),
        (LineReachedAndLegOver, "10.22 rounds that end with both"),
        (
            NeverAtPlace(NeverThere::HardlyMoves),
            "10.39 the agent hardly moves",
        ),
        (
            NeverAtPlace(NeverThere::Far),
            "10.39 the agent is never near a place",
        ),
        (
            FirstEndAside,
            "10.24 the agent comes near the leg's end alone",
        ),
        (
            SecondEndAside,
            "10.24 the agent comes near the leg's start alone",
        ),
        (BothEndsAside, "10.24 the agent comes near neither"),
        (BothEndsPassed, "10.25 both were near before the start"),
        (FirstEndAlone, "10.26 a hint for the leg's start alone"),
        (SecondEndAlone, "10.26 a hint for the leg's end alone"),
        (
            FirstEndSooner,
            "10.26 a hint for the leg's start, the sooner",
        ),
        (
            SecondEndSooner,
            "10.26 a hint for the leg's end, the sooner",
        ),
        (EndsLevel, "10.26 a hint for both, level"),
        (
            OncomingAside,
            "10.28 the agent never comes near the leg's end",
        ),
        (
            OncomingPassed,
            "10.28 the agent starts near the leg's end or past it",
        ),
        (OncomingHint, "10.28 a hint before the leg's end"),
        (RoundStrayed, "10.22 a round past 2^53 ns: refused 7"),
        (PlaceStrayed, "10.42 a hint's place strayed: refused 7"),
        (Full, "10.43 a 65th hint: refused 10"),
    ];

    /// That of them that was never seen: a round goes from times of the table to the end of the line
    /// at the latest, so it could stray by rounding alone.
    pub const UNSEEN: [Branch; 1] = [RoundStrayed];
}
