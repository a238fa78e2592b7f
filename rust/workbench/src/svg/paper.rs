//! The paper that the picture is printed on: A4, laid across, with margins of 10 mm.

/// What it takes at the picture's natural size, rounded down.
const WIDTH: u32 = 1_047;
const HEIGHT: u32 = 718;

/// Up to this height a picture is printed on one page: its type is then of about 6 points at the least. A
/// higher one takes as many pages as it needs.
const ONE_PAGE: u32 = 1_200;

/// The width that a picture of this height has on its page without being printed smaller for it.
pub fn free_width(height: u32) -> u32 {
    match height <= ONE_PAGE {
        true => height * WIDTH / HEIGHT,
        false => 0,
    }
}

/// The style by which a browser prints the picture so.
pub fn style(height: u32) -> String {
    let printed = match height <= ONE_PAGE {
        true => "100%",
        false => "auto",
    };
    format!(
        "@page{{size:A4 landscape;margin:10mm}}@media print{{:root{{width:100%;height:{printed}}}}}"
    )
}
