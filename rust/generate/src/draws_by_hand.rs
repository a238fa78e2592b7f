//! Document 02's W-210: the first draws of three seeds, worked out by hand.

/// The first draws of three seeds: the state, and its upper four digits exclusive-or its lower four. To the
/// seed, and to each state, 0x9E37_79B9 is added, and of a sum of nine digits the first, a 1, is dropped.
pub const FIRST_DRAWS: [(u32, [(u32, u16); 12]); 3] = [
    (
        0,
        [
            (0x9E37_79B9, 0xE78E),
            (0x3C6E_F372, 0xCF1C), // of 0x1_3C6E_F372
            (0xDAA6_6D2B, 0xB78D),
            (0x78DD_E6E4, 0x9E39), // of 0x1_78DD_E6E4
            (0x1715_609D, 0x7788), // of 0x1_1715_609D
            (0xB54C_DA56, 0x6F1A),
            (0x5384_540F, 0x078B), // of 0x1_5384_540F
            (0xF1BB_CDC8, 0x3C73),
            (0x8FF3_4781, 0xC872), // of 0x1_8FF3_4781
            (0x2E2A_C13A, 0xEF10), // of 0x1_2E2A_C13A
            (0xCC62_3AF3, 0xF691),
            (0x6A99_B4AC, 0xDE35), // of 0x1_6A99_B4AC
        ],
    ),
    (
        1,
        [
            (0x9E37_79BA, 0xE78D),
            (0x3C6E_F373, 0xCF1D), // of 0x1_3C6E_F373
            (0xDAA6_6D2C, 0xB78A),
            (0x78DD_E6E5, 0x9E38), // of 0x1_78DD_E6E5
            (0x1715_609E, 0x778B), // of 0x1_1715_609E
            (0xB54C_DA57, 0x6F1B),
            (0x5384_5410, 0x0794), // of 0x1_5384_5410
            (0xF1BB_CDC9, 0x3C72),
            (0x8FF3_4782, 0xC871), // of 0x1_8FF3_4782
            (0x2E2A_C13B, 0xEF11), // of 0x1_2E2A_C13B
            (0xCC62_3AF4, 0xF696),
            (0x6A99_B4AD, 0xDE34), // of 0x1_6A99_B4AD
        ],
    ),
    (
        4_294_967_295,
        [
            (0x9E37_79B8, 0xE78F), // of 0x1_9E37_79B8
            (0x3C6E_F371, 0xCF1F), // of 0x1_3C6E_F371
            (0xDAA6_6D2A, 0xB78C),
            (0x78DD_E6E3, 0x9E3E), // of 0x1_78DD_E6E3
            (0x1715_609C, 0x7789), // of 0x1_1715_609C
            (0xB54C_DA55, 0x6F19),
            (0x5384_540E, 0x078A), // of 0x1_5384_540E
            (0xF1BB_CDC7, 0x3C7C),
            (0x8FF3_4780, 0xC873), // of 0x1_8FF3_4780
            (0x2E2A_C139, 0xEF13), // of 0x1_2E2A_C139
            (0xCC62_3AF2, 0xF690),
            (0x6A99_B4AB, 0xDE32), // of 0x1_6A99_B4AB
        ],
    ),
];
