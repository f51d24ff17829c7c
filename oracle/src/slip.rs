//! Slips and other readings of the two documents, each of which can be switched on in the model to see whether the
//! recorded cases catch it. The rules ask `slipped(..)` where one of them would go another way; nothing else
//! depends on it.

use std::cell::Cell;

macro_rules! slips {
    ($($name:ident $source:literal $text:literal,)*) => {
        #[derive(Clone, Copy, PartialEq, Eq, Debug)]
        pub enum Slip { $($name,)* }

        impl Slip {
            pub const ALL: &'static [Slip] = &[$(Slip::$name,)*];

            /// The reading of docs/DECISIONS.md that it goes against, document 01's list of slips, or the request.
            pub fn source(self) -> &'static str {
                match self { $(Slip::$name => $source,)* }
            }

            pub fn text(self) -> &'static str {
                match self { $(Slip::$name => $text,)* }
            }
        }
    };
}

slips! {
    CopyStatesBeforeBytes "slip" "a copy's entry states are marked before its bytes",
    CopyStatesDescending "slip" "a copy's entry states are marked from the highest down",
    ErasureStatesAscending "slip" "an erasure's entry states are marked from the lowest up",
    BlobsBeforeFinish "slip" "blobs are judged before the finish stage",
    PartialCopyResumed "slip" "a partial copy is resumed in place",
    BlobOfFirstSectorKept "slip" "the older blob is kept because its sector comes first",
    BlankByStateWord "R3" "a state word of all ones is enough for Blank",
    BlankWithoutLastPairs "R3" "the two pairs past entry 125 do not count for Blank",
    BlankByNines "No. 3" "of nine bytes one does not count for Blank",
    BlankWithoutLastGroup "No. 3" "the last eight bytes do not count for Blank",
    RecordsBeforeSteps "No. 3" "the records are those of the image before the steps",
    HeaderRestTested "R3" "header bytes 9-27 have to be 0xFF as well",
    KeyEndsAtZeroByte "R7" "a key ends at its first zero byte",
    SparePairsUnread "No. 7" "the two pairs past entry 125 count as unread behind an item that ends there",
    PayloadUnread "No. 7" "Written payload entries of an item count as unread",
    WrittenLessSpans "No. 7" "unread is Written less the spans of the items",
    IllegalUnread "No. 7" "Illegal entries that the walk reached count as unread",
    UnknownTypeNotUnread "No. 7" "entries whose type is not known do not count as unread",
    WrongSpanNotUnread "No. 7" "readable entries of span 0 or past the page do not count as unread",
    FreeSectorUnread "No. 7" "Written entries of a free sector count as unread",
    UnreadKept "No. 7" "the count of unread entries goes on from page to page",
    UnreadByListPlace "No. 7" "unread is told by the place in the page list, not by the sector",
    UnreadBeforeSteps "No. 7" "unread is counted on the image before the steps",
    ReaderCountsNone "No. 7" "the item reader counts no unread entry",
    ReaderCountsFromItem "No. 7" "the item reader counts the unread entries behind its last item alone",
    CopyByWords "No. 4" "a copy is marked by the words that cover it",
    ErasureByWords "No. 4" "an erasure is marked by the words that cover it",
    CopyByTwoEntries "No. 4" "a copy is marked by two entries a step",
    ErasureByTwoEntries "No. 4" "an erasure is marked by two entries a step",
    CopyOneEntryShort "No. 4" "the last entry of a copy of several is not marked",
    ErasureOneEntryShort "No. 4" "the last entry of several is not erased",
    CopyDescendsInWords "No. 4" "a copy is marked from the lowest word up, inside a word from the highest entry down",
    ErasureAscendsInWords "No. 4" "an erasure goes from the highest word down, inside a word from the lowest entry up",
    CopyWordsDescend "No. 4" "a copy is marked from the highest word down, inside a word from the lowest entry up",
    ErasureWordsAscend "No. 4" "an erasure goes from the lowest word up, inside a word from the highest entry down",
    CopyMarksEntryBehind "No. 4" "a copy's last mark marks the entry behind it too",
    ErasureTakesEntryBehind "No. 4" "an erasure's first mark erases the entry behind it too",
    MarkedByBytes "No. 4" "a mark sets all four entries of its byte",
    MarkAfterEachEntry "No. 4" "each entry of a copy is marked right after its own words",
    FullBeforeMarks "No. 4" "Full is marked before a copy's entry states",
    FullBeforeLastMark "No. 4" "Full is marked before the last of a copy's entry states",
    ErasedEntriesPassed "No. 4" "an erasure makes no step for an entry that is Erased already",
    WordsOfOnesSkipped "R10" "words of all ones are not programmed",
    CopyKeepsPayloadStates "R11" "a copy takes over the payload's entry states",
    MarkedInOldOrder "R15" "other Active pages are marked in the order before the change of places",
    ChangeOfPlacesForgotten "R16" "later stages go by sectors ascending again",
    ScanBetweenRounds "R17" "the finish stage scans again after each round",
    EveryActiveJudged "R18" "any Active page may be the copy, not the first alone",
    Namespace0NotCompared "R18" "items of namespace 0 do not count in the finish stage",
    ActiveWithoutItemsKept "R19" "an Active page without items is no copy",
    NewestAskedAfterCopy "R20" "the newest page is asked also once the copy was erased",
    EqualSequenceIsNewer "R21" "a page of the source's sequence is newer than the source",
    ErasedCopyCounts "R22" "the erased copy counts for the greatest sequence",
    NoFreeJudgedBeforeErasure "R23" "no free sector: judged before the copy was erased",
    ErasedJoinsInOrder "R23" "an erased sector joins the free list in sector order",
    FinishTakesFirstFree "R23" "the finish stage takes the first free sector",
    NoOrderWithoutStep "R24" "no second scan and stage 1 where the finish stage made no step",
    LeftSourceNotJudged "R24" "a source left Freeing takes no part in stages 3 and 4",
    LeftSourceRecordedFull "R24" "the record of a source left Freeing says full",
    Namespace0BlobsKept "R25" "blobs of namespace 0 are not judged",
    OlderIndicesErased "R26" "all indices of an unsound version are erased",
    LastIndexCounts "R26" "the last index in the list counts, not the newest",
    IndexErasedByItsSpan "R27" "stage 3 erases an index by its whole span",
    IndexAloneIsUnsound "R28" "an index without chunks is not sound",
    SizesWrapAt16Bits "R28" "summed chunk sizes wrap at 16 bits",
    CountAndSizeAlone "No. 2" "chunk indices are not looked at: count and size are enough",
    ChunksFromStartByte "No. 2" "chunk indices run from the index's own start byte",
    CountIncluded "No. 2" "chunk indices run up to start + count, one more than the count",
    NoneAboveCount "No. 2" "chunk indices that differ, none above start + count, are enough",
    EachOnceIsEnough "No. 2" "chunk indices that differ are enough",
    FirstAndLastAreEnough "No. 2" "the first and the last chunk index are enough",
    DistinctChunksCounted "No. 2" "a chunk index stored twice counts once",
    SecondCopyDropped "No. 2" "a second copy of a chunk is dropped to save the blob",
    ChunksInOrder "No. 2" "chunks have to stand in order in the list",
    ExactButNamespace0 "No. 2" "in namespace 0 count and size are enough",
    NumbersAgainAfter128 "No. 2" "after 128 chunks the chunk indices begin at start again",
    NoneAt256 "No. 2" "128 chunks of start 0x80 are not sound",
    SizesNotSummed "No. 2" "sizes are no longer summed",
    KeyBeforeStart "R29" "versions ascend by (namespace, key, start)",
    OlderOfTwoInOnePass "R29" "the older of two is erased in the same pass as the others",
    OlderByOldestIndex "R29" "the older of two goes by each version's oldest index",
    NotWalkedAnew "R30" "stage 4 judges by what is left of stage 3's items",
    GroupedByType "R30" "groups are told by the type as well",
    GroupedByChunkIndex "R30" "groups are told by the chunk index byte as well",
    OldIndexErasedByOneEntry "R31" "stage 4 erases one entry of an old blob index",
    ChunksAfterAllOld "R31" "an old index's chunks are erased after all old items of the group",
    SameStartByByte "R31" "the same start is judged by the byte",
    FilledPageMarkedByBlobs "R32" "stage 3 marks the page whose last Empty entry it took",
    EarlierInListIsNewer "R33" "among equal (sequence, entry) the earlier in the list is newer",
    ReclaimTakesFirstFree "R34" "reclaim takes the first free sector",
    FreeingNotMarkedAgain "R34" "reclaim does not mark a Freeing page again",
    FreeingNotChosen "R34" "reclaim does not choose a Freeing page",
    IllegalCountsAsErased "R35" "Illegal entries count as Erased in the points",
    UnreadableCountsAsErased "R35" "unreadable Written entries count as Erased in the points",
    NextWraps "R35" "next wraps at 2^32 in the points",
    RefusedWhereSequenceNeeded "R38" "recovery's result 6 only where a new sequence would be taken",
    CopyErasureNamesCopy "R39" "a stop at the copy's erasure names the copy's sector, not the source's",
}

thread_local! {
    static SWITCHED_ON: Cell<Option<Slip>> = const { Cell::new(None) };
}

pub fn switched_on() -> Option<Slip> {
    SWITCHED_ON.get()
}

/// Whether this slip is switched on.
pub fn slipped(slip: Slip) -> bool {
    switched_on() == Some(slip)
}

/// What `answer` gives with this slip switched on.
pub fn with_slip<T>(slip: Slip, answer: impl FnOnce() -> T) -> T {
    SWITCHED_ON.set(Some(slip));
    let given = answer();
    SWITCHED_ON.set(None);
    given
}
