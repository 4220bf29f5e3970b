//! The C functions as the header declares them.

extern "C" {
    pub fn gulxinett_reset(state: *mut u8, state_len: usize) -> u64;

    pub fn gulxinett_read(
        state: *const u8,
        state_len: usize,
        rom: *const u8,
        rom_len: usize,
        ram: *const u8,
        ram_len: usize,
        address: u16,
    ) -> u64;

    pub fn gulxinett_write(
        state: *mut u8,
        state_len: usize,
        ram: *mut u8,
        ram_len: usize,
        store: *mut u8,
        store_len: usize,
        image: *const u8,
        image_len: usize,
        address: u16,
        value: u8,
    ) -> u64;

    pub fn gulxinett_tick(
        state: *mut u8,
        state_len: usize,
        ram: *mut u8,
        ram_len: usize,
        store: *const u8,
        store_len: usize,
        cycles: u32,
    ) -> u64;

    pub fn gulxinett_choose(
        state: *mut u8,
        state_len: usize,
        light: u8,
        level: u8,
        plain: u8,
        exposure: u32,
    ) -> u64;

    pub fn gulxinett_inspect(state: *const u8, state_len: usize) -> u64;

    pub fn gulxinett_picture(
        frame: *const u8,
        frame_len: usize,
        registers: *const u8,
        picture: *mut u8,
    ) -> u64;

    pub fn gulxinett_record_reset(out: *mut u8, out_len: usize) -> u64;

    pub fn gulxinett_record_read(address: u16, out: *mut u8, out_len: usize) -> u64;

    pub fn gulxinett_record_write(address: u16, value: u8, out: *mut u8, out_len: usize) -> u64;

    pub fn gulxinett_record_tick(cycles: u32, out: *mut u8, out_len: usize) -> u64;

    pub fn gulxinett_record_row(
        row: u8,
        bytes: *const u8,
        bytes_len: usize,
        out: *mut u8,
        out_len: usize,
    ) -> u64;

    pub fn gulxinett_export(ram: *const u8, ram_len: usize, out: *mut u8, out_len: usize) -> u64;

    pub fn gulxinett_place(
        state: *const u8,
        state_len: usize,
        ram: *mut u8,
        ram_len: usize,
        file: *const u8,
        file_len: usize,
    ) -> u64;

    pub fn gulxinett_shades(ram: *const u8, ram_len: usize, out: *mut u8, out_len: usize) -> u64;

    pub fn gulxinett_readings(
        state: *const u8,
        state_len: usize,
        store: *const u8,
        store_len: usize,
        out: *mut u8,
        out_len: usize,
    ) -> u64;

    pub fn gulxinett_import_photo(
        file: *const u8,
        file_len: usize,
        image: *mut u8,
        image_len: usize,
    ) -> u64;

    pub fn gulxinett_salvage(
        script: *const u8,
        script_len: usize,
        text: *mut u8,
        text_len: usize,
        report: *mut u8,
        report_len: usize,
    ) -> u64;

    pub fn gulxinett_save(
        state: *const u8,
        state_len: usize,
        ram: *const u8,
        ram_len: usize,
        store: *const u8,
        store_len: usize,
        out: *mut u8,
        out_len: usize,
    ) -> u64;

    pub fn gulxinett_restore(
        file: *const u8,
        file_len: usize,
        state: *mut u8,
        state_len: usize,
        ram: *mut u8,
        ram_len: usize,
        store: *mut u8,
        store_len: usize,
    ) -> u64;

    pub fn gulxinett_judge(
        plate: *const u8,
        frame: *const u8,
        frame_len: usize,
        registers: *const u8,
        rows: *mut u8,
        rows_len: usize,
    ) -> u64;

    pub fn gulxinett_step(
        state: *mut u8,
        state_len: usize,
        rom: *const u8,
        rom_len: usize,
        ram: *mut u8,
        ram_len: usize,
        store: *mut u8,
        store_len: usize,
        image: *mut u8,
        image_len: usize,
        line: *const u8,
        line_len: usize,
        out: *mut u8,
        out_len: usize,
    ) -> u64;

    pub fn gulxinett_audit(
        book: *mut u64,
        book_words: usize,
        line: *mut u8,
        line_len: usize,
        state: *mut u8,
        state_len: usize,
        rom: *const u8,
        rom_len: usize,
        ram: *mut u8,
        ram_len: usize,
        store: *mut u8,
        store_len: usize,
        image: *mut u8,
        image_len: usize,
        piece: *const u8,
        piece_len: usize,
        out: *mut u8,
        out_len: usize,
    ) -> u64;

    pub fn gulxinett_audit_end(
        book: *mut u64,
        book_words: usize,
        line: *mut u8,
        line_len: usize,
        state: *mut u8,
        state_len: usize,
        rom: *const u8,
        rom_len: usize,
        ram: *mut u8,
        ram_len: usize,
        store: *mut u8,
        store_len: usize,
        image: *mut u8,
        image_len: usize,
        out: *mut u8,
        out_len: usize,
    ) -> u64;

    pub fn gulxinett_audit_changed(
        book: *mut u64,
        book_words: usize,
        first: *const u8,
        first_len: usize,
        ram: *const u8,
        ram_len: usize,
        from: u32,
        out: *mut u8,
        out_len: usize,
    ) -> u64;

    pub fn gulxinett_audit_summary(
        book: *mut u64,
        book_words: usize,
        state: *const u8,
        state_len: usize,
        out: *mut u8,
        out_len: usize,
    ) -> u64;
}
