//! The calls of include/guide.h as they are linked. A struct of numbers of 32 bits is lent as those numbers, so that every one of them
//! can be filled before a call and compared after it; a watch record, which has narrower fields, as six numbers of 16 bits.

macro_rules! calls {
    ($($name:ident($($argument:ident: $kind:ty),*);)*) => {
        extern "C" {
            $(pub fn $name($($argument: $kind),*) -> u32;)*
        }
    };
}

macro_rules! shelf_calls {
    ($($name:ident)*) => {
        calls! {
            $($name(watches: *mut u16, records: usize, places: *mut u32, numbers: usize, area: *mut u8, size: usize,
                    section: *const u8, n: usize, question: *const u32, asked: usize, reply: *mut u32, told: usize);)*
        }
    };
}

calls! {
    guide_judge(section: *const u8, n: usize, header: *mut u32);
    guide_fault(section: *const u8, n: usize, offset: *mut u32);

    guide_mgt(section: *const u8, n: usize, fields: *mut u32);
    guide_mgt_table(section: *const u8, n: usize, i: u32, fields: *mut u32);
    guide_tvct(section: *const u8, n: usize, fields: *mut u32);
    guide_tvct_channel(section: *const u8, n: usize, i: u32, fields: *mut u32);
    guide_rrt(section: *const u8, n: usize, fields: *mut u32);
    guide_rrt_dimension(section: *const u8, n: usize, i: u32, fields: *mut u32);
    guide_rrt_value(section: *const u8, n: usize, i: u32, j: u32, fields: *mut u32);
    guide_eit(section: *const u8, n: usize, fields: *mut u32);
    guide_eit_event(section: *const u8, n: usize, i: u32, fields: *mut u32);
    guide_ett(section: *const u8, n: usize, fields: *mut u32);

    guide_mgt_tables(section: *const u8, n: usize, rows: *mut u32, numbers: usize, count: *mut u32);
    guide_tvct_channels(section: *const u8, n: usize, rows: *mut u32, numbers: usize, count: *mut u32);
    guide_rrt_dimensions(section: *const u8, n: usize, rows: *mut u32, numbers: usize, count: *mut u32);
    guide_rrt_values(section: *const u8, n: usize, rows: *mut u32, numbers: usize, count: *mut u32);
    guide_eit_events(section: *const u8, n: usize, rows: *mut u32, numbers: usize, count: *mut u32);
    guide_titles(section: *const u8, n: usize, rows: *mut u32, numbers: usize, units: *mut u16, room: usize, told: *mut u32);

    guide_strings(section: *const u8, n: usize, which: *const u32, count: *mut u32);
    guide_heading(section: *const u8, n: usize, which: *const u32, told: *mut u32);
    guide_units(section: *const u8, n: usize, which: *const u32, told: *mut u32);
    guide_text(section: *const u8, n: usize, which: *const u32, units: *mut u16, room: usize, told: *mut u32);
    guide_field_strings(field: *const u8, n: usize, count: *mut u32);
    guide_field_heading(field: *const u8, n: usize, string: u32, told: *mut u32);
    guide_field_units(field: *const u8, n: usize, string: u32, told: *mut u32);
    guide_field_text(field: *const u8, n: usize, string: u32, units: *mut u16, room: usize, told: *mut u32);

    guide_rating(section: *const u8, n: usize, i: u32, region: u32, dimension: u32, told: *mut u32);
    guide_descriptor(section: *const u8, n: usize, i: u32, k: u32, told: *mut u32);
    guide_advisory(section: *const u8, n: usize, i: u32, region: u32, text: *mut u32);
    guide_list_rating(list: *const u8, n: usize, region: u32, dimension: u32, told: *mut u32);
    guide_list_descriptor(list: *const u8, n: usize, k: u32, told: *mut u32);
    guide_list_advisory(list: *const u8, n: usize, region: u32, text: *mut u32);

    guide_write_eit(given: *const u32, rows: *const u32, numbers: usize, bytes: *const u8, n: usize, out: *mut u8, room: usize,
                    length: *mut u32);
    guide_write_ett(given: *const u32, text: *const u8, n: usize, out: *mut u8, room: usize, length: *mut u32);
}

shelf_calls! { lent_open lent_close lent_status lent_fetch lent_deliver }
