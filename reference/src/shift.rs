//! A few bytes before the program's own code. The feature `shifted` makes them 16
//! more, which shifts all of that code and changes nothing else: the time of a short
//! loop depends on where it lies, so the bench is built both ways.

#[cfg(target_arch = "x86_64")]
mod bytes {
    #[cfg(not(feature = "shifted"))]
    core::arch::global_asm!(
        ".text",
        ".p2align 6",
        "reference_shift:",
        "ret",
        ".skip 63, 0x90",
    );

    #[cfg(feature = "shifted")]
    core::arch::global_asm!(
        ".text",
        ".p2align 6",
        "reference_shift:",
        "ret",
        ".skip 79, 0x90",
    );

    extern "C" {
        pub fn reference_shift();
    }
}

/// Keeps the bytes in the program.
#[cfg(target_arch = "x86_64")]
pub fn keep() {
    // SAFETY: the function returns at once.
    unsafe { bytes::reference_shift() }
}

#[cfg(not(target_arch = "x86_64"))]
pub fn keep() {}
