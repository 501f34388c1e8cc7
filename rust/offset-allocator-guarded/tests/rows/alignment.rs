//! Aligned requests.

use super::steps::Limit::Limited;
use super::steps::Step::{
    Aligns, Counts, Fills, FillsAligned, FillsAlignedNot, Frees, Grants, Refuses, RefusesAligned, Reports,
};
use super::steps::{expect_all, Case};
use offset_allocator::Refusal::Fragmented;

const ALIGNED: [Case; 10] = [
    Case {
        name: "keeps the padding free",
        size: 100,
        limit: Limited(16),
        steps: &[Grants(10, 0), Aligns(8, 16, 16), Reports(82, 72)],
    },
    Case {
        name: "needs no padding at a multiple",
        size: 64,
        limit: Limited(8),
        steps: &[
            Aligns(16, 16, 0),
            Aligns(16, 16, 16),
            Counts(&[(24, 32, 1)]),
        ],
    },
    // First the sum of size and padding exceeds 32 bits, then one unused node is too few.
    Case {
        name: "refuses large sums and a last unused block",
        size: 100,
        limit: Limited(4),
        steps: &[
            RefusesAligned(4_294_967_295, 2),
            RefusesAligned(4_294_967_295, 2_147_483_648),
            Grants(10, 0),
            RefusesAligned(1, 2),
            Aligns(1, 1, 10),
        ],
    },
    // Padding and remainder are of one class, and the remainder is pushed last.
    Case {
        name: "pushes the remainder after the padding",
        size: 15,
        limit: Limited(8),
        steps: &[Grants(2, 0), Aligns(1, 8, 8), Grants(6, 9)],
    },
    Case {
        name: "aligns no units",
        size: 40,
        limit: Limited(8),
        steps: &[Grants(3, 0), Aligns(0, 16, 16), Frees(1), Reports(37, 36)],
    },
    // The units that the worst padding needs have to be free, not only those that are used here.
    Case {
        name: "aligns to the largest power",
        size: 4_294_967_295,
        limit: Limited(8),
        steps: &[
            RefusesAligned(1_879_048_194, 2_147_483_648),
            Grants(1, 0),
            Aligns(1_879_048_193, 2_147_483_648, 2_147_483_648),
            Refuses(2_147_483_647),
        ],
    },
    // Each request takes the smallest class that has its size and the worst padding.
    Case {
        name: "aligns to numbers that are no powers of two",
        size: 1000,
        limit: Limited(16),
        steps: &[
            Grants(5, 0),
            // 21 units of the 995 from 5 on
            Aligns(10, 12, 12),
            // 43 of the 978 from 22 on; 7 are free from 5 on
            Aligns(8, 36, 36),
            // 867, rounded up to 896, of the 956 from 44 on, which are filed as 896
            Aligns(100, 768, 768),
            // 8 of the 14 from 22 on
            Aligns(6, 3, 24),
            // no padding
            Aligns(7, 1, 5),
            // left are 2 from 22 on, 6 from 30 on, 724 from 44 on, and 132 from 868 on
            Counts(&[(2, 2, 1), (6, 6, 1), (40, 128, 1), (59, 704, 1)]),
        ],
    },
    // 48 units are a class: 37 and 11 for the worst padding are as many, though at 0 none is needed.
    Case {
        name: "needs the units of the worst padding",
        size: 48,
        limit: Limited(8),
        steps: &[
            RefusesAligned(38, 12),
            Aligns(37, 12, 0),
            Frees(0),
            RefusesAligned(14, 36),
            Aligns(13, 36, 0),
        ],
    },
    // The block of 4294967294 units is filed as 4026531840, 2999999999 of which may be padding.
    Case {
        name: "aligns to a large number that is no power",
        size: 4_294_967_295,
        limit: Limited(8),
        steps: &[
            Grants(1, 0),
            RefusesAligned(1_026_531_842, 3_000_000_000),
            RefusesAligned(2, 4_294_967_295),
            Aligns(1_026_531_841, 3_000_000_000, 3_000_000_000),
            Reports(3_268_435_453, 2_952_790_016),
        ],
    },
    // Of the last 5 units that 32 bits name, 4294967290 and 4294967295 are multiples of 5, 4294967292 is one of 12, and the
    // multiple of 13 before them is 4294967287.
    Case {
        name: "finds multiples at the end of 32 bits",
        size: 4_294_967_295,
        limit: Limited(8),
        steps: &[
            Fills(4_294_967_290, 0),
            FillsAlignedNot(1, 13, Fragmented),
            FillsAlignedNot(4, 12, Fragmented),
            FillsAligned(3, 12, 4_294_967_292),
            FillsAligned(2, 5, 4_294_967_290),
        ],
    },
];

#[test]
fn aligned_requests_leave_their_padding_free() {
    expect_all(&ALIGNED);
}
