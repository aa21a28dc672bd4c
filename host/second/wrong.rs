//! Wrong kernels: each is the right one with one error. The first is the right one.

macro_rules! wrongs {
    ($($name:ident $text:literal)*) => {
        #[derive(Clone, Copy, PartialEq, Eq, Debug)]
        pub enum Wrong { $($name),* }

        /// Every kernel with what is wrong in it.
        pub const KERNELS: &[(Wrong, &str)] = &[$((Wrong::$name, $text)),*];
    };
}

wrongs! {
    Nothing "the right one"
    KillLeavesEntry "kill leaves the number in the queue"
    KillLeavesCount "kill of a waiter leaves the count"
    SignalNewCount "signal looks at the new count"
    SignalReschedules "a signal without waiters reschedules"
    DeleteReschedulesEach "delete reschedules after each waiter"
    DeleteNeverReschedules "delete never reschedules"
    DeleteAlwaysReschedules "delete without waiters reschedules"
    KeepsAmongEquals "rescheduling keeps the current one among equals"
    SemaphoresFromZero "the search for a semaphore begins at 0"
    SlotsFromZero "the search for a slot begins at 0"
    NullMayWait "a wait by process 0 is not refused"
    NullTakesPermits "a wait by process 0 is refused only at a count of 0 or less"
    NullBeforeNumber "a wait by process 0 gives 10 before 1 and 2"
    NullBeforeFree "a wait by process 0 gives 10 after 1 and before 2"
    ResetNumberFirst "reset looks at the number before the count argument"
    DeleteLeavesCount "delete leaves the count in the freed entry"
    ResetAdds "reset adds b to the old count"
    ResetUsesUp "waiters released by a reset use up b"
    ReadyNewestFirst "ready list newest first among equals"
    WaitBlocksAtZero "wait blocks at a new count of 0"
    QueueNewestFirst "a waiter joins at the head of the queue"
    SemaphoreCursorStays "the semaphore cursor stays at the number given"
    SlotCursorStays "the process cursor stays at the number given"
    SignalWraps "signal at the top wraps"
    SignalStopsEarly "signal is refused one below the top"
    KillReschedules "kill of another process reschedules"
    KillReleasesNext "kill of a waiter releases the next one"
    KillLeavesPriority "kill leaves the priority in the freed slot"
    KillLeavesReady "kill leaves a ready process on the list"
    SuspendReschedules "suspend of a ready process reschedules"
    SuspendNull "suspend of process 0 is done"
    ResumeQuiet "resume does not reschedule"
    ResumeAnswersOne "resume answers 1"
    ResumeRefusesNull "resume of process 0 gives 10"
    StatesUnnamed "resume and suspend give 9 whatever the state"
    CurrentAsReady "resume of the current process gives 18 and of a ready one 17"
    SuspendedAsWaiting "suspend of a suspended process gives 19"
    WaitingAsSuspended "resume and suspend of a waiting process give 9"
    NullAsCurrent "resume of process 0 gives 17 also where it is ready"
    ReleaseBackwards "delete and reset release the last waiter first"
    DeleteMovesCursor "delete sets the cursor to the freed entry"
    ArgumentsFirst "14 before 13"
    SpareIgnored "unused arguments are ignored"
    PriorityTop "priority 64 is accepted"
    PriorityNone "priority 0 is accepted"
    DisplacedFirst "a displaced process goes in front of its equals"
    RefusesAll "every call is refused"
    AnswersOne "every call answers 1 and changes nothing"
    OnlyFirst "the first call is done, the rest only answered"
    CountMadeUp "count of a answers 0"
    LastLineLost "bench: a last line without newline is dropped"
    UpperRefused "bench: upper case digits are refused"
    ReturnStripped "bench: a carriage return at the end is taken away"
    PrefixRead "bench: an overlong line is read by its first 18 digits"
    ShortPadded "bench: a short line is filled up with zeros"
    EmptySkipped "bench: an empty line gives no answer"
    LineTells255 "bench: a 12 tells process 255"
    NulEnds "bench: a NUL ends the line's text"
}

/// The kernel of a name.
pub fn kernel(name: &str) -> Option<Wrong> {
    KERNELS.iter().map(|&(wrong, _)| wrong).find(|wrong| format!("{:?}", wrong) == name)
}
