//! libimagequant, the library behind pngquant, if it is installed. It is loaded when the bench runs, so that the bench
//! builds without it. It and the engine are called in one process on the same pixels, and take turns.

use crate::{medians, print, CLOSENESS, NAME_WIDTH};
use cloths::swatch::Swatch;
use std::ffi::{c_char, c_double, c_float, c_int, c_void, CStr};
use std::hint::black_box;
use std::mem::transmute_copy;
use std::ptr::null_mut;

const NAMES: [&CStr; 2] = [c"libimagequant.so.0", c"libimagequant.so"];
const RTLD_NOW: c_int = 2;
/// The library takes 0 for the usual gamma.
const USUAL_GAMMA: c_double = 0.0;

extern "C" {
    fn dlopen(name: *const c_char, flags: c_int) -> *mut c_void;
    fn dlsym(library: *mut c_void, name: *const c_char) -> *mut c_void;
}

/// Its calls, by the names that its header gives them.
struct Library {
    attr_create: unsafe extern "C" fn() -> *mut c_void,
    set_max_colors: unsafe extern "C" fn(*mut c_void, c_int) -> c_int,
    image_create_rgba:
        unsafe extern "C" fn(*const c_void, *const c_void, c_int, c_int, c_double) -> *mut c_void,
    image_quantize: unsafe extern "C" fn(*mut c_void, *mut c_void, *mut *mut c_void) -> c_int,
    set_dithering_level: unsafe extern "C" fn(*mut c_void, c_float) -> c_int,
    write_remapped_image:
        unsafe extern "C" fn(*mut c_void, *mut c_void, *mut c_void, usize) -> c_int,
    result_destroy: unsafe extern "C" fn(*mut c_void),
    image_destroy: unsafe extern "C" fn(*mut c_void),
    attr_destroy: unsafe extern "C" fn(*mut c_void),
}

/// A call of the library, by its name.
///
/// # Safety
/// `F` is the type of a pointer to the function of this name.
unsafe fn call<F>(library: *mut c_void, name: &CStr) -> Option<F> {
    let address = unsafe { dlsym(library, name.as_ptr()) };
    (!address.is_null()).then(|| unsafe { transmute_copy(&address) })
}

impl Library {
    fn open() -> Option<Library> {
        // SAFETY: the names end in a zero; the types are those of the library's header.
        unsafe {
            let library = NAMES
                .iter()
                .map(|name| dlopen(name.as_ptr(), RTLD_NOW))
                .find(|library| !library.is_null())?;
            Some(Library {
                attr_create: call(library, c"liq_attr_create")?,
                set_max_colors: call(library, c"liq_set_max_colors")?,
                image_create_rgba: call(library, c"liq_image_create_rgba")?,
                image_quantize: call(library, c"liq_image_quantize")?,
                set_dithering_level: call(library, c"liq_set_dithering_level")?,
                write_remapped_image: call(library, c"liq_write_remapped_image")?,
                result_destroy: call(library, c"liq_result_destroy")?,
                image_destroy: call(library, c"liq_image_destroy")?,
                attr_destroy: call(library, c"liq_attr_destroy")?,
            })
        }
    }

    /// A palette of this many colours, and each pixel's place in it. 0 if all went well.
    fn quantize(&self, picture: &Picture, colours: c_int, labels: &mut [u8]) -> c_int {
        // SAFETY: the picture has width times height pixels of four bytes, the labels a byte for each; what is created is
        // destroyed once.
        unsafe {
            let attributes = (self.attr_create)();
            let mut wrong = (self.set_max_colors)(attributes, colours);
            let pixels = picture.rgba.as_ptr().cast();
            let (width, height) = (picture.width, picture.height);
            let image = (self.image_create_rgba)(attributes, pixels, width, height, USUAL_GAMMA);
            let mut result = null_mut();
            wrong |= (self.image_quantize)(image, attributes, &mut result);
            if !result.is_null() {
                wrong |= (self.set_dithering_level)(result, 0.0);
                let places = labels.as_mut_ptr().cast();
                wrong |= (self.write_remapped_image)(result, image, places, labels.len());
                (self.result_destroy)(result);
            }
            (self.image_destroy)(image);
            (self.attr_destroy)(attributes);
            wrong
        }
    }
}

struct Picture {
    rgba: Vec<u8>,
    width: c_int,
    height: c_int,
}

impl Picture {
    fn of(swatch: &Swatch) -> Picture {
        let opaque = |&[red, green, blue]: &[u8; 3]| [red, green, blue, 255];
        Picture {
            rgba: swatch.pixels.iter().flat_map(opaque).collect(),
            width: swatch.width as c_int,
            height: swatch.height as c_int,
        }
    }
}

/// The second time is the library's: as many colours as the card has entries, each pixel's place, nothing dithered.
pub fn time(name: &str, swatch: &Swatch, entries: u32) {
    let Some(library) = Library::open() else {
        println!(
            "{:NAME_WIDTH$} not installed",
            format!("libimagequant, {name}")
        );
        return;
    };
    let picture = Picture::of(swatch);
    let colours = entries.max(2) as c_int;
    let mut bytes = swatch.bytes();
    let (mut first, mut second) = (vec![0; swatch.pixels.len()], vec![0; swatch.pixels.len()]);
    let wrong = library.quantize(&picture, colours, &mut second);
    if wrong != 0 {
        println!(
            "{:NAME_WIDTH$} not timed: it said {wrong}",
            format!("libimagequant, {name}")
        );
        return;
    }
    let times = medians(
        || {
            black_box(engine::card(black_box(&mut bytes), CLOSENESS, &mut first));
        },
        || {
            black_box(library.quantize(black_box(&picture), colours, &mut second));
        },
    );
    print(
        "libimagequant",
        name,
        times,
        "the second time is the library's",
    );
}
