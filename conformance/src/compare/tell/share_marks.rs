//! What the calls of shares (requests A9 and A10) must meet.

use super::marks::marks;

marks! {
    "splits given" {
        AllNeeded "k equal to n";
        KeyOfZeros "key of zeros";
        KeyByte0 "some key bytes 0";
        NoTerms "coefficients all 0";
        LastTerm0 "highest coefficient of a byte 0";
        OnlyLastTerm "all coefficients but the highest 0";
        KeyExact "key that just fits";
        KeyLonger "longer key";
        TermsExact "coefficients that just fit";
        TermsLonger "more coefficients";
        SharesOutExact "slice that just fits";
        SharesOutLonger "longer slice";
    }
    "splits refused by 26" {
        SplitK0 "k 0";
        SplitK1 "k 1";
        SplitN0 "n 0";
        SplitN1 "n 1";
        SplitBoth0 "both 0";
        SplitBoth1 "both 1";
        SplitKAboveN "k one above n";
        SplitK17 "k 17, n 16";
        SplitN17 "n 17";
        SplitBoth17 "both 17";
        SplitKMost "k 4294967295";
        SplitNMost "n 4294967295";
        SplitBothMost "both 4294967295";
        SplitKLow "k good in its low byte";
        SplitNLow "n good in its low byte";
        SplitBefore28 "slice too short as well";
    }
    "splits refused by 28" {
        KeyShort "key alone one byte short";
        KeyNone "empty key";
        TermsShort "coefficients alone one byte short";
        TermsNone "no coefficients";
        SharesOutShort "slice alone one byte short";
        SharesOutNone "empty slice";
    }
    "merges given" {
        Rising "numbers rising";
        Falling "falling";
        NoOrder "in no order";
        Number1 "number 1";
        NumberN "number n";
        NumbersExact "as many numbers as k";
        Behind "more numbers";
        Behind0 "0 behind the first k";
        BehindAbove "one above n behind them";
        BehindAgain "one of them again behind them";
        SharesExact "shares that just fit";
        SharesLonger "longer shares";
        ShareOfZeros "share of zeros";
        ShareByte0 "some bytes of a share 0";
        KeyOutExact "slice that just fits";
        KeyOutLonger "longer slice";
    }
    "merges refused by 26" {
        MergeK0 "k 0";
        MergeK1 "k 1";
        MergeN0 "n 0";
        MergeN1 "n 1";
        MergeBoth0 "both 0";
        MergeBoth1 "both 1";
        MergeKAboveN "k one above n";
        MergeK17 "k 17, n 16";
        MergeN17 "n 17";
        MergeBoth17 "both 17";
        MergeKMost "k 4294967295";
        MergeNMost "n 4294967295";
        MergeBothMost "both 4294967295";
        MergeKLow "k good in its low byte";
        MergeNLow "n good in its low byte";
        Before27 "bad number as well";
        Before28 "slice too short as well";
        BeforeBoth "both as well";
    }
    "merges refused by 27" {
        ZeroFirst "first number alone 0";
        ZeroLast "last of the first k alone 0";
        AboveFirst "first alone one above n";
        AboveLast "last alone one above n";
        AgainAtOnce "first two alone equal";
        AgainLast "last two alone equal";
        AgainApart "first and last alone equal";
        Number255 "number 255";
        FewerZero "fewer than k and one 0";
        FewerAbove "fewer and one above n";
        FewerAgain "fewer and one again";
        SharesToo "shares too short as well";
        KeyOutToo "slice too short as well";
    }
    "merges refused by 28" {
        NumbersShort "numbers alone one short";
        NumbersNone "no number";
        SharesShort "shares alone one byte short";
        SharesNone "no shares";
        KeyOutShort "slice alone one byte short";
        KeyOutNone "empty slice";
    }
    "sums given" {
        SumExact "slices of one length";
        MoreLonger "longer second run";
        SumOutLonger "longer slice";
        SumBothLonger "both longer";
        SumNone "0 bytes, all slices empty";
        SumNoneLonger "0 bytes, the others longer";
        SumPart "no multiple of 32 bytes";
        SumLong "65536 bytes or more";
        SumBeyondCount "16777216 bytes or more";
        SumFirstZeros "first run of zeros";
        SumMoreZeros "second run of zeros";
        SumSame "a run with itself";
    }
    "sums refused by 28" {
        MoreShort "second run alone one byte short";
        MoreNone "second run alone empty";
        SumOutShort "slice alone one byte short";
        SumOutNone "slice alone empty";
        SumBothShort "both too short";
        SumBothNone "both empty";
    }
    "round trips of shares" {
        KeysBack "keys given back by k shares";
        OrdersBack "merges in another order";
        SumsBack "sums with the second run again";
        SumsMerged "sums merged as their runs";
    }
}

/// The ways for k and n to be out of range, in the order of `causes`.
pub const SPLIT_CAUSES: [Mark; 15] = [
    Mark::SplitK0,
    Mark::SplitK1,
    Mark::SplitN0,
    Mark::SplitN1,
    Mark::SplitBoth0,
    Mark::SplitBoth1,
    Mark::SplitKAboveN,
    Mark::SplitK17,
    Mark::SplitN17,
    Mark::SplitBoth17,
    Mark::SplitKMost,
    Mark::SplitNMost,
    Mark::SplitBothMost,
    Mark::SplitKLow,
    Mark::SplitNLow,
];

pub const MERGE_CAUSES: [Mark; 15] = [
    Mark::MergeK0,
    Mark::MergeK1,
    Mark::MergeN0,
    Mark::MergeN1,
    Mark::MergeBoth0,
    Mark::MergeBoth1,
    Mark::MergeKAboveN,
    Mark::MergeK17,
    Mark::MergeN17,
    Mark::MergeBoth17,
    Mark::MergeKMost,
    Mark::MergeNMost,
    Mark::MergeBothMost,
    Mark::MergeKLow,
    Mark::MergeNLow,
];

/// What of `SPLIT_CAUSES` and `MERGE_CAUSES` is met. Where one of k and n is named, the other is within
/// its range.
pub fn causes(k: u32, n: u32) -> [bool; 15] {
    const MOST: u32 = u32::MAX;
    let is_good = |number: u32| (2..=16).contains(&number);
    let (low_k, low_n) = (k & 255, n & 255);
    let is_low_good = is_good(low_k) && is_good(low_n) && low_k <= low_n;
    [
        k == 0 && is_good(n),
        k == 1 && is_good(n),
        n == 0 && is_good(k),
        n == 1 && is_good(k),
        (k, n) == (0, 0),
        (k, n) == (1, 1),
        is_good(k) && is_good(n) && k == n + 1,
        (k, n) == (17, 16),
        n == 17 && is_good(k),
        (k, n) == (17, 17),
        k == MOST && is_good(n),
        n == MOST && is_good(k),
        (k, n) == (MOST, MOST),
        k > 255 && is_good(n) && is_low_good,
        n > 255 && is_good(k) && is_low_good,
    ]
}
