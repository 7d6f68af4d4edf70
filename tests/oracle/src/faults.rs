//! Seeded faults: each makes the model wrong in one way, so that the harness can be shown to catch it.

use crate::soundness::Rule;

macro_rules! faults {
    ($($name:ident: $says:literal,)*) => {
        #[derive(Clone, Copy, Debug, PartialEq, Eq)]
        pub enum Fault {
            /// The model as document 01 has it, and document 02's first two requests.
            None,
            /// A rule of soundness is not looked at.
            RuleSkipped(Rule),
            $(#[doc = $says] $name,)*
        }

        const NAMED: &[Fault] = &[$(Fault::$name,)*];

        impl Fault {
            pub fn says(self) -> &'static str {
                match self {
                    Fault::None => "as documents 01 and 02 have it",
                    Fault::RuleSkipped(_) => "a rule of a sound record is not looked at",
                    $(Fault::$name => $says,)*
                }
            }
        }
    };
}

faults! {
    OwnPairsSkipped: "pairs with the own identifier are never suspect",
    VerifyCountedTwice: "a link's second Verify of one identifier is accepted and counted",
    AnnounceCountedAsVerify: "a link's Announce counts as its Verify too",
    NoSumTest: "the prime check does not look at the sum of the tallies",
    SumOneLess: "a sum of n² − 2t − 1 is enough",
    SumOneMore: "a sum of n² − 2t is not enough",
    TalliesAdded: "held vector messages are added to the sum of the identifiers' tallies",
    SuspectsUpToTPlusOne: "t + 1 suspect pairs are let pass",
    NoSuspectTest: "the prime check does not look at suspect pairs",
    SuspectNeedsBothMissing: "a pair is suspect only if both Verifies are missing",
    SuspectCountedPerVerify: "a pair with both Verifies missing is counted twice",
    NoPrimeCheckAfterVerify: "no prime check after a Verify",
    PrimeCheckAfterVectorToo: "a prime check after a vector message too",
    TForTPlusOne: "the secondary check asks for a tally of t",
    OneCorrectFinalIsEnough: "the secondary check asks for one Correct-Final",
    SecondaryCheckOnAnyList: "the secondary check looks at every held list, not at the one that came",
    BothVectorMessagesCounted: "a Correct-Final counts beside the Verify-Final of that list that it replaces",
    ReadingCOff: "a Correct-Final is discarded where a Verify-Final of another list is held",
    SecondCorrectFinalAccepted: "a second Correct-Final of a link replaces the first",
    SecondVerifyFinalSent: "a base may send a second Verify-Final",
    SentNotNoted: "the record does not note that a Verify-Final was sent",
    VerifyFinalAtOne: "one Correct-Final is enough for a Verify-Final",
    ListFullAtN: "a link's list is full at n",
    ListFullAtNPlusTwo: "a link's list is full at n + 2",
    OwnAnnounceAccepted: "an Announce of one's own identifier is accepted",
    AnnounceAtTwoLinksAccepted: "an identifier announced at one link is accepted from another",
    SecondAnnounceAccepted: "a second Announce of a link replaces the first",
    AnnounceNotPassedOn: "an accepted Announce is not followed by a Verify",
    VerifyPutInFront: "Verifies are not kept in order of acceptance",
    FinalListUnsorted: "the final list of a prime base is not sorted",
    StartOrderSwapped: "a start broadcasts Verify before Announce",
    StoppedBaseListens: "a stopped base goes on accepting",
    DiscardAtIdleBaseIsSilent: "a discarded arrival at an idle base keeps its start's frames back",
    RefusedArrivalStarts: "an arrival whose burst is refused starts an idle base",
    RefusedCallWrites: "a refused arrival writes into the output",
    OutputPastFramesTouched: "a byte of the output past the frames is changed",
    FramesLeaveAGap: "the second frame does not follow the first at once",
    DiscardedAnsweredAccepted: "a discarded call answers that it was accepted",
    HigherLimitOfT: "t may be one above its limit",
    ThreeBeforeTwo: "number 3 is checked before 2",
    SixBeforeFive: "number 6 is checked before 5",
    SevenBeforeSix: "numbers 7 to 12 are checked before 6",
    LinkNAccepted: "link n is taken for link n − 1",
    OutputOf135: "an output of 135 bytes is enough",
    BurstOneByteLonger: "a burst is read that is a byte too long",
    TenBeforeNine: "number 10 is checked before 9",
    DistanceNotRead: "a wrong back distance is not refused",
    DistanceCountsBodyOnly: "the back distance that is written leaves out the trailer",
    BodyAtTheFront: "the body is taken from the burst's front",
    ZeroIdentifierRead: "an identifier of zero is read",
    EqualsAscend: "equal identifiers side by side are read",
    TwelveBeforeEleven: "number 12 is checked before 11",
    LowByteFirst: "identifiers go low byte first",
    LeaderIsSmallest: "the leader is the smallest identifier",
    LeaderOfRunningBase: "a running base names itself leader",
    IdleRecordRuns: "a new record is running",
    WaitingOneDirection: "waiting counts one direction of a link",
    WaitingCountsFaulty: "waiting counts faulty links too",
    WaitingForgetsDiscards: "a discarded arrival is not noted as carried",
    RepeatAllowedOnGoodLink: "a carry may be repeated on a good link",
    CarryBeforeBroadcast: "a carry of a message not yet broadcast is passed over",
    ForgeryOnGoodLink: "a forgery on a good link is delivered",
    ForgeryRefusalStops: "a forged burst that is refused ends the schedule",
    EqualIdentifiersAllowed: "two bases may have one identifier",
    FaultyOneMore: "t + 1 links may be named faulty",
    FormAfterChecks: "a faulty line's other checks come before its form",
    LineOffByOne: "the line that is named is one too high",
    MissingLineNamedByLast: "a missing header line is named by the last line there is",
    LeadingZeros: "numbers may have leading zeros",
    NumbersWrap: "numbers above 4,294,967,295 wrap",
    UpperCaseHex: "upper-case digits are read",
    ForgeOneByteLonger: "a forge line may have a byte more",
    ForgeWithoutSpace: "a forge line of no bytes may lack its space",
    LastLineUnended: "the last line may lack its line feed",
    EmptyLinesSkipped: "empty lines are skipped",
    DoubleSpaces: "two spaces stand for one",
    FaultyAfterEvents: "faulty lines may follow events",
    FaultyEitherOrder: "a faulty line may name the higher base first",
    FaultyTwice: "a faulty line may be repeated",
    LongScheduleRead: "a schedule of 65,537 bytes is read",
    LongScheduleLast: "an overlong schedule is refused only after its lines",
    LinkNumberOfOther: "a carry arrives on the link that has the sender's number",
    SecondaryPrintedPrime: "a secondary base is printed as prime",
    LastSetLeftOut: "the last set of faulty links is left out",
    EmptySetLeftOut: "the empty set is left out",
    SetListedTwice: "a set of faulty links is listed twice",
    SetInPlaceOfNext: "a set of faulty links stands in the place of the next one too",
    SizesDownwards: "the larger sets of faulty links come first",
    PairsBySecondBase: "pairs go by their second base",
    PairsDescend: "the pairs of a set go downwards",
    HigherBaseFirst: "a pair of a set has its higher base first",
    CountWithoutEmptySet: "the count of the sets leaves out the empty one",
    SetsFromOne: "the number of a set is taken from 1",
    SetNumberCut: "the number of a set is cut to 32 bits",
    LastSetRefused: "the last set's number is refused by 20",
    SetPastLast: "the first number past the last set is taken for that set's",
    SevenBasesListed: "the sets of seven bases are listed",
    NineteenBeforeTwo: "number 19 is checked before 2",
    TwentyBeforeNineteen: "number 20 is checked before 19",
    RefusedSetKeepsAPair: "a set that is refused has a pair",
    LinesFromOne: "the sets are printed with numbers from 1",
    LineBehindNetRefused: "a line behind the net's is refused",
    LongTextRefused: "a net's line is refused if the text is too long for a schedule",
    NetLineUnended: "a net's line may lack its line feed",
    ShortOutputWritten: "the sets are printed into an output that is too short",
    OutputPastLinesTouched: "a byte of the output past the sets' lines is changed",
    SlotsRoundedDown: "slots are rounded down",
    OwnVerifyRelayed: "a Verify of the own identifier counts as relayed",
    CorrectFinalRelayed: "a Correct-Final counts as relayed",
    VerifyFinalOwn: "a Verify-Final counts as own",
    DiscardedStartWithoutSlots: "a discarded arrival at an idle base has no slots",
    RefusedCallHasSlots: "a refused call has slots",
    OwnSumTwice: "the own slots are given as the relayed ones too",
    RelayedSumTwice: "the relayed slots are given as the own ones too",
    SlotsForEachLink: "a frame's slots are counted once for each link",
    WrittenSlotsLost: "a written frame has no slots",
    RefusedWriteHasSlots: "a frame that is not written has slots",
}

impl Fault {
    pub fn all() -> Vec<Fault> {
        let rules = Rule::ALL.into_iter().map(Fault::RuleSkipped);
        NAMED.iter().copied().chain(rules).collect()
    }

    pub fn name(self) -> String {
        format!("{self:?}")
    }
}
