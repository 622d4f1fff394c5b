/* Reads a file of records into an image, restarts it, and says which partitions
 * of a plan exist before and after: partition 0 is the plan's room list,
 * partition 1 its load sheet. */
#include <jeghatuf.h>

#include <inttypes.h>
#include <stdio.h>
#include <stdlib.h>

#define CAPACITY 4096
#define MOST_INPUT 65536

static const uint8_t PLAN[] = "plan-0042";

/* The value of an answer. A refusal ends the program. */
static uint32_t value(const char *call, uint64_t answer) {
    if (jeghatuf_refusal_of(answer) != JEGHATUF_ACCEPTED) {
        fprintf(stderr, "%s: refused, %d\n", call, jeghatuf_refusal_of(answer));
        exit(EXIT_FAILURE);
    }
    return jeghatuf_value_of(answer);
}

/* The bytes of a file, which has to be shorter than the buffer. */
static size_t load(const char *path, uint8_t *buffer, size_t buffer_len) {
    FILE *file = fopen(path, "rb");
    size_t length = file == NULL ? 0 : fread(buffer, 1, buffer_len, file);
    if (file == NULL || ferror(file)) {
        perror(path);
        exit(EXIT_FAILURE);
    }
    fclose(file);
    if (length == buffer_len) {
        fprintf(stderr, "%s: longer than %d bytes\n", path, MOST_INPUT);
        exit(EXIT_FAILURE);
    }
    return length;
}

/* Gives each record to Validate and, where that says 0, to Apply. Its log offset
 * is its number, from 0. */
static void take(uint8_t *image, const uint8_t *records, size_t length) {
    unsigned count = 0, applied = 0;
    for (size_t at = 0, used; at < length; at += used) {
        used = value("Read", jeghatuf_read(records + at, length - at));
        uint64_t answer = jeghatuf_validate(image, CAPACITY, records + at, used);
        if (jeghatuf_refusal_of(answer) == JEGHATUF_ACCEPTED) {
            answer = jeghatuf_apply(image, CAPACITY, count, records + at, used);
        }
        if (jeghatuf_refusal_of(answer) == JEGHATUF_ACCEPTED) {
            applied++;
        } else {
            printf("byte %zu: refused, %d\n", at, jeghatuf_refusal_of(answer));
        }
        count++;
    }
    printf("%u records, %u applied\n", count, applied);
}

/* The number of a record's field, which has at most eight bytes; 0 where there is no
 * such field. */
static uint64_t number_in(const uint8_t *record, size_t length, enum jeghatuf_tag tag) {
    uint64_t place[2] = {0, 0}, number = 0;
    jeghatuf_field(record, length, JEGHATUF_FIRST_FIELD, (uint8_t)tag, place, 2);
    for (uint64_t i = 0; i < place[1]; i++) {
        number = number << 8 | record[place[0] + i];
    }
    return number;
}

/* Says whether a partition of the plan exists, and which node leads it. */
static void say_partition(const uint8_t *image, uint32_t number) {
    uint8_t out[CAPACITY];
    uint64_t answer = jeghatuf_partition(image, CAPACITY, PLAN, sizeof PLAN - 1, number, out, sizeof out);
    uint32_t length = value("partition", answer);
    if (length == 0) {
        printf("partition %" PRIu32 " no", number);
        return;
    }
    printf("partition %" PRIu32 " yes, led by %" PRIu64, number,
           number_in(out, length, JEGHATUF_TAG_PARTITION_LEADER));
}

/* The log offset of the last record applied. */
static int64_t log_offset(const uint8_t *image) {
    uint64_t offset[1] = {0};
    value("log offset", jeghatuf_log_offset(image, CAPACITY, offset, 1));
    return (int64_t)offset[0];
}

static void say(const uint8_t *image, const char *when) {
    printf("%s, %s: ", (const char *)PLAN, when);
    say_partition(image, 0);
    printf(", ");
    say_partition(image, 1);
    printf("; log offset %" PRId64 "\n", log_offset(image));
}

int main(int argc, char **argv) {
    static uint8_t records[MOST_INPUT + 1], image[CAPACITY], snapshot[CAPACITY], restored[CAPACITY];
    uint64_t place[1] = {0};
    if (argc != 2) {
        fprintf(stderr, "usage: plan FILE\n");
        return EXIT_FAILURE;
    }
    size_t length = load(argv[1], records, sizeof records);
    value("Open", jeghatuf_open(image, sizeof image));
    take(image, records, length);
    say(image, "before the restart");
    length = value("Snapshot", jeghatuf_snapshot(image, sizeof image, snapshot, sizeof snapshot));
    value("Restore", jeghatuf_restore(restored, sizeof restored, snapshot, length, place, 1));
    say(restored, "after the restart");
    return EXIT_SUCCESS;
}
