//! The entry points of `libjeghatuf.a`, as `include/jeghatuf.h` declares them. Their
//! contracts ask nothing of the bytes that they are given.

unsafe extern "C" {
    pub(crate) fn jeghatuf_read(input: *const u8, input_len: usize) -> u64;

    pub(crate) fn jeghatuf_write(
        kind: u8,
        tags: *const u8,
        tags_len: usize,
        lengths: *const u16,
        lengths_len: usize,
        values: *const u8,
        values_len: usize,
        out: *mut u8,
        out_len: usize,
    ) -> u64;

    pub(crate) fn jeghatuf_field(
        bytes: *const u8,
        bytes_len: usize,
        at: usize,
        tag: u8,
        place: *mut u64,
        place_len: usize,
    ) -> u64;

    pub(crate) fn jeghatuf_open(buffer: *mut u8, buffer_len: usize) -> u64;

    pub(crate) fn jeghatuf_is_image(buffer: *const u8, buffer_len: usize) -> u64;

    pub(crate) fn jeghatuf_validate(
        image: *const u8,
        image_len: usize,
        input: *const u8,
        input_len: usize,
    ) -> u64;

    pub(crate) fn jeghatuf_apply(
        image: *mut u8,
        image_len: usize,
        offset: u64,
        input: *const u8,
        input_len: usize,
    ) -> u64;

    pub(crate) fn jeghatuf_snapshot(
        image: *const u8,
        image_len: usize,
        out: *mut u8,
        out_len: usize,
    ) -> u64;

    pub(crate) fn jeghatuf_restore(
        image: *mut u8,
        image_len: usize,
        input: *const u8,
        input_len: usize,
        place: *mut u64,
        place_len: usize,
    ) -> u64;

    pub(crate) fn jeghatuf_with_offset(
        run: *const u8,
        run_len: usize,
        offset: u64,
        out: *mut u8,
        out_len: usize,
        value: *mut u64,
        value_len: usize,
    ) -> u64;

    pub(crate) fn jeghatuf_without_offset(
        run: *const u8,
        run_len: usize,
        out: *mut u8,
        out_len: usize,
        values: *mut u64,
        values_len: usize,
    ) -> u64;

    pub(crate) fn jeghatuf_downgrade(
        image: *const u8,
        image_len: usize,
        level: u16,
        out: *mut u8,
        out_len: usize,
    ) -> u64;

    pub(crate) fn jeghatuf_topic(
        image: *const u8,
        image_len: usize,
        name: *const u8,
        name_len: usize,
        out: *mut u8,
        out_len: usize,
    ) -> u64;

    pub(crate) fn jeghatuf_topic_by_id(
        image: *const u8,
        image_len: usize,
        id: *const [u8; 16],
        out: *mut u8,
        out_len: usize,
    ) -> u64;

    pub(crate) fn jeghatuf_partition(
        image: *const u8,
        image_len: usize,
        name: *const u8,
        name_len: usize,
        number: u32,
        out: *mut u8,
        out_len: usize,
    ) -> u64;

    pub(crate) fn jeghatuf_broker(
        image: *const u8,
        image_len: usize,
        node: u64,
        out: *mut u8,
        out_len: usize,
    ) -> u64;

    pub(crate) fn jeghatuf_freeze(
        image: *const u8,
        image_len: usize,
        name: *const u8,
        name_len: usize,
        out: *mut u8,
        out_len: usize,
    ) -> u64;

    pub(crate) fn jeghatuf_freezes(
        image: *const u8,
        image_len: usize,
        list: *const u8,
        list_len: usize,
        out: *mut u8,
        out_len: usize,
        read: *mut u64,
        read_len: usize,
    ) -> u64;

    pub(crate) fn jeghatuf_log_freeze(
        run: *const u8,
        run_len: usize,
        name: *const u8,
        name_len: usize,
        out: *mut u8,
        out_len: usize,
        value: *mut u64,
        value_len: usize,
    ) -> u64;

    pub(crate) fn jeghatuf_view_snapshot(
        image: *const u8,
        image_len: usize,
        prefixes: *const u8,
        prefixes_len: usize,
        out: *mut u8,
        out_len: usize,
    ) -> u64;

    pub(crate) fn jeghatuf_view_topic(
        image: *const u8,
        image_len: usize,
        prefixes: *const u8,
        prefixes_len: usize,
        name: *const u8,
        name_len: usize,
        out: *mut u8,
        out_len: usize,
    ) -> u64;

    pub(crate) fn jeghatuf_view_partition(
        image: *const u8,
        image_len: usize,
        prefixes: *const u8,
        prefixes_len: usize,
        name: *const u8,
        name_len: usize,
        number: u32,
        out: *mut u8,
        out_len: usize,
    ) -> u64;

    pub(crate) fn jeghatuf_view_freeze(
        image: *const u8,
        image_len: usize,
        prefixes: *const u8,
        prefixes_len: usize,
        name: *const u8,
        name_len: usize,
        out: *mut u8,
        out_len: usize,
    ) -> u64;

    pub(crate) fn jeghatuf_compare(
        first: *mut u8,
        first_len: usize,
        second: *mut u8,
        second_len: usize,
        one: *const u8,
        one_len: usize,
        other: *const u8,
        other_len: usize,
        value: *mut u64,
        value_len: usize,
    ) -> u64;

    pub(crate) fn jeghatuf_history(
        records: *const u8,
        records_len: usize,
        number: u64,
        out: *mut u8,
        out_len: usize,
    ) -> u64;

    pub(crate) fn jeghatuf_kafka_read(
        input: *const u8,
        input_len: usize,
        out: *mut u8,
        out_len: usize,
        used: *mut u64,
        used_len: usize,
    ) -> u64;

    pub(crate) fn jeghatuf_kafka_write(
        input: *const u8,
        input_len: usize,
        out: *mut u8,
        out_len: usize,
    ) -> u64;

    pub(crate) fn jeghatuf_throttle(
        image: *const u8,
        image_len: usize,
        node: u64,
        kind: u8,
        value: *mut u64,
        value_len: usize,
    ) -> u64;

    pub(crate) fn jeghatuf_features_epoch(
        image: *const u8,
        image_len: usize,
        value: *mut u64,
        value_len: usize,
    ) -> u64;

    pub(crate) fn jeghatuf_log_offset(
        image: *const u8,
        image_len: usize,
        value: *mut u64,
        value_len: usize,
    ) -> u64;

    pub(crate) fn jeghatuf_short_count(image: *const u8, image_len: usize) -> u64;
}
