//! Wunqaber for Rust: the calls of include/wunqaber.h as safe functions over slices. What each call
//! answers, and what its numbers mean, stands in that header.
//!
//! Every function here is safe for any slices: a slice is never null, a `&mut` one overlaps no other,
//! and the library reads and writes within the lengths that it is given, which is proved.

pub const DONE: u32 = 0;
pub const SIDE: u32 = 1;
pub const RADIUS: u32 = 2;
pub const POSITION: u32 = 3;
pub const ASKED: u32 = 4;
pub const OFFSET: u32 = 5;
pub const CANVAS_SIDE: u32 = 6;
pub const SHEET_RULE: u32 = 7;
pub const CANVAS_LENGTH: u32 = 8;
pub const SHEET_FULL: u32 = 9;
pub const NO_LAYER: u32 = 10;
pub const NO_ROW_LEFT: u32 = 11;
pub const ROW_OWED: u32 = 12;
pub const BUFFER_LENGTH: u32 = 13;
pub const FILE_HEADER: u32 = 14;
pub const RASTER_LENGTH: u32 = 15;
pub const NO_RECORD: u32 = 100;
pub const NOTHING: u32 = 101;

pub const ELLIPSE: i32 = 0;
pub const CRATE_BOX: i32 = 1;
pub const W3C_BOX: i32 = 2;

pub const INSIDE: i32 = 0;
pub const CENTER: i32 = 1;
pub const OUTSIDE: i32 = 2;

pub const ABSENT: i32 = -1;

/// How many numbers a figure, a style, a layer, a sheet and a call in a list have, and confined radii with L and S.
pub const FIGURE_LENGTH: usize = 13;
pub const STYLE_LENGTH: usize = 4;
pub const LAYER_LENGTH: usize = FIGURE_LENGTH + STYLE_LENGTH + 1;
pub const SHEET_LENGTH: usize = 3 + 16 * LAYER_LENGTH;
pub const CALL_LENGTH: usize = 20;
pub const CONFINED_LENGTH: usize = 10;

mod linked {
    extern "C" {
        pub fn wunqaber_contains(
            figure: *const i32,
            figure_length: usize,
            x: i32,
            y: i32,
            out: *mut i32,
            out_length: usize,
        ) -> u32;
        pub fn wunqaber_row(figure: *const i32, figure_length: usize, y: i32, out: *mut i32, out_length: usize) -> u32;
        pub fn wunqaber_points(
            figure: *const i32,
            figure_length: usize,
            list: *mut i32,
            list_length: usize,
            out: *mut i32,
            out_length: usize,
        ) -> u32;
        pub fn wunqaber_offset(
            figure: *const i32,
            figure_length: usize,
            k: i32,
            out: *mut i32,
            out_length: usize,
        ) -> u32;
        pub fn wunqaber_confined_radii(
            figure: *const i32,
            figure_length: usize,
            out: *mut i32,
            out_length: usize,
        ) -> u32;
        pub fn wunqaber_ellipse_with_center(
            x: i32,
            y: i32,
            width: u32,
            height: u32,
            out: *mut i32,
            out_length: usize,
        ) -> u32;
        pub fn wunqaber_styled_row(
            figure: *const i32,
            figure_length: usize,
            style: *const i32,
            style_length: usize,
            y: i32,
            out: *mut i32,
            out_length: usize,
        ) -> u32;
        pub fn wunqaber_styled_bounding_box(
            figure: *const i32,
            figure_length: usize,
            style: *const i32,
            style_length: usize,
            out: *mut i32,
            out_length: usize,
        ) -> u32;
        pub fn wunqaber_paint_figure(
            figure: *const i32,
            figure_length: usize,
            style: *const i32,
            style_length: usize,
            width: u32,
            height: u32,
            canvas: *mut u8,
            canvas_length: usize,
        ) -> u32;
        pub fn wunqaber_sheet_open(width: u32, height: u32, sheet: *mut i32, sheet_length: usize) -> u32;
        pub fn wunqaber_sheet_add(
            sheet: *mut i32,
            sheet_length: usize,
            figure: *const i32,
            figure_length: usize,
            style: *const i32,
            style_length: usize,
        ) -> u32;
        pub fn wunqaber_sheet_paint(
            sheet: *mut i32,
            sheet_length: usize,
            layer: u32,
            canvas: *mut u8,
            canvas_length: usize,
        ) -> u32;
        pub fn wunqaber_sheet_remove(
            sheet: *mut i32,
            sheet_length: usize,
            layer: u32,
            canvas: *mut u8,
            canvas_length: usize,
            background: *const u8,
            background_length: usize,
        ) -> u32;
        pub fn wunqaber_run_calls(
            width: u32,
            height: u32,
            calls: *const i32,
            calls_length: usize,
            canvas: *mut u8,
            canvas_length: usize,
            background: *const u8,
            background_length: usize,
            answers: *mut u32,
            answers_length: usize,
        ) -> u32;
        pub fn wunqaber_write_p5(
            width: u32,
            height: u32,
            canvas: *const u8,
            canvas_length: usize,
            file: *mut u8,
            file_length: usize,
            out: *mut i32,
            out_length: usize,
        ) -> u32;
        pub fn wunqaber_write_p4(
            width: u32,
            height: u32,
            canvas: *const u8,
            canvas_length: usize,
            file: *mut u8,
            file_length: usize,
            out: *mut i32,
            out_length: usize,
        ) -> u32;
        pub fn wunqaber_read_netpbm(
            file: *const u8,
            file_length: usize,
            canvas: *mut u8,
            canvas_length: usize,
            out: *mut i32,
            out_length: usize,
        ) -> u32;
    }
}

pub fn contains(figure: &[i32], x: i32, y: i32, out: &mut [i32]) -> u32 {
    unsafe { linked::wunqaber_contains(figure.as_ptr(), figure.len(), x, y, out.as_mut_ptr(), out.len()) }
}

pub fn row(figure: &[i32], y: i32, out: &mut [i32]) -> u32 {
    unsafe { linked::wunqaber_row(figure.as_ptr(), figure.len(), y, out.as_mut_ptr(), out.len()) }
}

pub fn points(figure: &[i32], list: &mut [i32], out: &mut [i32]) -> u32 {
    unsafe {
        linked::wunqaber_points(
            figure.as_ptr(),
            figure.len(),
            list.as_mut_ptr(),
            list.len(),
            out.as_mut_ptr(),
            out.len(),
        )
    }
}

pub fn offset(figure: &[i32], k: i32, out: &mut [i32]) -> u32 {
    unsafe { linked::wunqaber_offset(figure.as_ptr(), figure.len(), k, out.as_mut_ptr(), out.len()) }
}

pub fn confined_radii(figure: &[i32], out: &mut [i32]) -> u32 {
    unsafe { linked::wunqaber_confined_radii(figure.as_ptr(), figure.len(), out.as_mut_ptr(), out.len()) }
}

pub fn ellipse_with_center(x: i32, y: i32, width: u32, height: u32, out: &mut [i32]) -> u32 {
    unsafe { linked::wunqaber_ellipse_with_center(x, y, width, height, out.as_mut_ptr(), out.len()) }
}

pub fn styled_row(figure: &[i32], style: &[i32], y: i32, out: &mut [i32]) -> u32 {
    unsafe {
        linked::wunqaber_styled_row(
            figure.as_ptr(),
            figure.len(),
            style.as_ptr(),
            style.len(),
            y,
            out.as_mut_ptr(),
            out.len(),
        )
    }
}

pub fn styled_bounding_box(figure: &[i32], style: &[i32], out: &mut [i32]) -> u32 {
    unsafe {
        linked::wunqaber_styled_bounding_box(
            figure.as_ptr(),
            figure.len(),
            style.as_ptr(),
            style.len(),
            out.as_mut_ptr(),
            out.len(),
        )
    }
}

pub fn paint_figure(figure: &[i32], style: &[i32], width: u32, height: u32, canvas: &mut [u8]) -> u32 {
    unsafe {
        linked::wunqaber_paint_figure(
            figure.as_ptr(),
            figure.len(),
            style.as_ptr(),
            style.len(),
            width,
            height,
            canvas.as_mut_ptr(),
            canvas.len(),
        )
    }
}

pub fn sheet_open(width: u32, height: u32, sheet: &mut [i32]) -> u32 {
    unsafe { linked::wunqaber_sheet_open(width, height, sheet.as_mut_ptr(), sheet.len()) }
}

pub fn sheet_add(sheet: &mut [i32], figure: &[i32], style: &[i32]) -> u32 {
    unsafe {
        linked::wunqaber_sheet_add(
            sheet.as_mut_ptr(),
            sheet.len(),
            figure.as_ptr(),
            figure.len(),
            style.as_ptr(),
            style.len(),
        )
    }
}

pub fn sheet_paint(sheet: &mut [i32], layer: u32, canvas: &mut [u8]) -> u32 {
    unsafe {
        linked::wunqaber_sheet_paint(
            sheet.as_mut_ptr(),
            sheet.len(),
            layer,
            canvas.as_mut_ptr(),
            canvas.len(),
        )
    }
}

pub fn sheet_remove(sheet: &mut [i32], layer: u32, canvas: &mut [u8], background: &[u8]) -> u32 {
    unsafe {
        linked::wunqaber_sheet_remove(
            sheet.as_mut_ptr(),
            sheet.len(),
            layer,
            canvas.as_mut_ptr(),
            canvas.len(),
            background.as_ptr(),
            background.len(),
        )
    }
}

pub fn run_calls(
    width: u32,
    height: u32,
    calls: &[i32],
    canvas: &mut [u8],
    background: &[u8],
    answers: &mut [u32],
) -> u32 {
    unsafe {
        linked::wunqaber_run_calls(
            width,
            height,
            calls.as_ptr(),
            calls.len(),
            canvas.as_mut_ptr(),
            canvas.len(),
            background.as_ptr(),
            background.len(),
            answers.as_mut_ptr(),
            answers.len(),
        )
    }
}

pub fn write_p5(width: u32, height: u32, canvas: &[u8], file: &mut [u8], out: &mut [i32]) -> u32 {
    unsafe {
        linked::wunqaber_write_p5(
            width,
            height,
            canvas.as_ptr(),
            canvas.len(),
            file.as_mut_ptr(),
            file.len(),
            out.as_mut_ptr(),
            out.len(),
        )
    }
}

pub fn write_p4(width: u32, height: u32, canvas: &[u8], file: &mut [u8], out: &mut [i32]) -> u32 {
    unsafe {
        linked::wunqaber_write_p4(
            width,
            height,
            canvas.as_ptr(),
            canvas.len(),
            file.as_mut_ptr(),
            file.len(),
            out.as_mut_ptr(),
            out.len(),
        )
    }
}

pub fn read_netpbm(file: &[u8], canvas: &mut [u8], out: &mut [i32]) -> u32 {
    unsafe {
        linked::wunqaber_read_netpbm(
            file.as_ptr(),
            file.len(),
            canvas.as_mut_ptr(),
            canvas.len(),
            out.as_mut_ptr(),
            out.len(),
        )
    }
}
