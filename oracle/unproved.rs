
/// How an argument goes to a function of an unproved module: a number as it is, anything else as a pointer to it.
pub(crate) trait Passed {
    type As;
    fn pass(&self) -> Self::As;
}

macro_rules! passed {
    (as numbers: $($number:ty)*) => {
        $(impl Passed for $number {
            type As = $number;
            fn pass(&self) -> $number {
                *self
            }
        })*
    };
    (as pointers: $($record:ty)*) => {
        $(impl Passed for $record {
            type As = *const $record;
            fn pass(&self) -> *const $record {
                self
            }
        })*
    };
}

passed!(as numbers: u64 u32 usize bool);
passed!(as pointers: LogIndex BlockPlace Ballot StopSign IndexRecord ShownSaid Bound Ops Lent LogSync);
passed!(as pointers: BallotLeaderElection BLEConfig BLEMessage);
