
// Behind a program's own `main`: an ordinary start crashes the toolchain's emulator, this one does not.
#[export_name = "main"]
pub extern "C" fn start(_: i32, _: *const *const core::ffi::c_char) -> i32 {
    main();
    0
}
