//! Readings of the pass.

/// A reading of the pass: the right one, or one with an error in it.
#[derive(Debug, Clone, Copy, PartialEq, Eq)]
pub enum Reading {
    Right,
    /// "Comparing contexts by ID alone."
    ComparesIds,
    /// "Filtering stably."
    FiltersStably,
    /// "Computing Create's environment without the split at the next context's length."
    DoesNotSplit,
    /// "Renaming in the clauses too."
    RenamesClauses,
    /// Create's next is linearized before its clauses.
    NextBeforeClauses,
    /// Switch draws before its clauses are linearized.
    SwitchDrawsFirst,
    /// Let draws after its next is linearized.
    LetDrawsLast,
    /// Op retains its next's free variables only.
    OpDropsInputs,
    /// What clashes with Let's args: nothing.
    LetIgnoresClashes,
    /// "Linearizing the first definition and copying the others."
    FirstDefinitionOnly,
    /// After Create's renaming, uses keep their spelling.
    KeepsSpelling,
    /// PrintI64 retains its next's free variables only.
    PrintDropsVar,
    /// PrintI64's var is not in its next's context.
    PrintConsumesVar,
    /// PrintI64 retains its next's free variables, and then its var behind them.
    PrintFiltersTwice,
    /// PrintI64 hands the whole context to its next.
    PrintHandsAllOn,
    /// PrintI64 gets a Substitute where its context is right too.
    PrintAlwaysSubstitutes,
    /// PrintI64's Substitute, where it gets one, draws an ID.
    PrintDraws,
    /// Exit gets a Substitute to the context of its var alone.
    ExitSubstitutes,
    /// Exit's var is not renamed.
    ExitKeepsVar,
    /// Exit's var is renamed where its ID is another, and keeps its spelling.
    ExitKeepsSpelling,
}
