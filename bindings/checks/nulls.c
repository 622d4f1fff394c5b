/* Makes every call with lists that have no elements and whose pointer is null: it
 * answers as for any list without elements. Prints what differs, and how many calls
 * were made. */
#include <jeghatuf.h>

#include <inttypes.h>
#include <stdio.h>

static unsigned calls = 0, wrong = 0;

/* Holds an answer to the refusal and the value that are expected. */
static void hold(const char *call, uint64_t answer, unsigned refusal, uint32_t value) {
    calls++;
    if ((unsigned)jeghatuf_refusal_of(answer) != refusal || jeghatuf_value_of(answer) != value) {
        wrong++;
        printf("%s: refusal %u, value %" PRIu32 "; expected are %u, %" PRIu32 "\n", call,
               (unsigned)jeghatuf_refusal_of(answer), jeghatuf_value_of(answer), refusal, value);
    }
}

static const uint8_t ID[16] = {0};

/* A record, FeatureLevel "a" at level 1. */
static const uint8_t LEVEL[12] = {11, 0, 9, 1, 0, 1, 'a', 2, 0, 2, 0, 1};

static void without_image(void) {
    hold("read", jeghatuf_read(NULL, 0), JEGHATUF_PAST_THE_END, 0);
    hold("write", jeghatuf_write(JEGHATUF_TOPIC, NULL, 0, NULL, 0, NULL, 0, NULL, 0), JEGHATUF_WRONG, 0);
    hold("write", jeghatuf_write(0, NULL, 0, NULL, 0, NULL, 0, NULL, 0), JEGHATUF_UNKNOWN_KIND, 0);
    hold("field", jeghatuf_field(NULL, 0, JEGHATUF_FIRST_FIELD, 1, NULL, 0), 0, 0);
    hold("field", jeghatuf_field(LEVEL, sizeof LEVEL, JEGHATUF_FIRST_FIELD, 1, NULL, 0), 0, 1);
    hold("open", jeghatuf_open(NULL, 0), JEGHATUF_NO_IMAGE, 0);
    hold("is_image", jeghatuf_is_image(NULL, 0), 0, 0);
    hold("validate", jeghatuf_validate(NULL, 0, NULL, 0), JEGHATUF_NO_IMAGE, 0);
    hold("apply", jeghatuf_apply(NULL, 0, 0, NULL, 0), JEGHATUF_NO_IMAGE, 0);
    hold("snapshot", jeghatuf_snapshot(NULL, 0, NULL, 0), JEGHATUF_NO_IMAGE, 0);
    hold("restore", jeghatuf_restore(NULL, 0, NULL, 0, NULL, 0), JEGHATUF_NO_IMAGE, 0);
    hold("downgrade", jeghatuf_downgrade(NULL, 0, 0, NULL, 0), JEGHATUF_NO_IMAGE, 0);
    hold("topic", jeghatuf_topic(NULL, 0, NULL, 0, NULL, 0), JEGHATUF_NO_IMAGE, 0);
    hold("topic_by_id", jeghatuf_topic_by_id(NULL, 0, ID, NULL, 0), JEGHATUF_NO_IMAGE, 0);
    hold("partition", jeghatuf_partition(NULL, 0, NULL, 0, 0, NULL, 0), JEGHATUF_NO_IMAGE, 0);
    hold("broker", jeghatuf_broker(NULL, 0, 0, NULL, 0), JEGHATUF_NO_IMAGE, 0);
    hold("freeze", jeghatuf_freeze(NULL, 0, NULL, 0, NULL, 0), JEGHATUF_NO_IMAGE, 0);
    hold("freezes", jeghatuf_freezes(NULL, 0, NULL, 0, NULL, 0, NULL, 0), JEGHATUF_NO_IMAGE, 0);
    hold("view_snapshot", jeghatuf_view_snapshot(NULL, 0, NULL, 0, NULL, 0), JEGHATUF_NO_IMAGE, 0);
    hold("view_topic", jeghatuf_view_topic(NULL, 0, NULL, 0, NULL, 0, NULL, 0), JEGHATUF_NO_IMAGE, 0);
    hold("view_partition", jeghatuf_view_partition(NULL, 0, NULL, 0, NULL, 0, 0, NULL, 0), JEGHATUF_NO_IMAGE, 0);
    hold("view_freeze", jeghatuf_view_freeze(NULL, 0, NULL, 0, NULL, 0, NULL, 0), JEGHATUF_NO_IMAGE, 0);
    hold("throttle", jeghatuf_throttle(NULL, 0, 0, 0, NULL, 0), JEGHATUF_NO_IMAGE, 0);
    hold("features_epoch", jeghatuf_features_epoch(NULL, 0, NULL, 0), JEGHATUF_NO_IMAGE, 0);
    hold("log_offset", jeghatuf_log_offset(NULL, 0, NULL, 0), JEGHATUF_NO_IMAGE, 0);
    hold("short_count", jeghatuf_short_count(NULL, 0), JEGHATUF_NO_IMAGE, 0);
    hold("compare", jeghatuf_compare(NULL, 0, NULL, 0, NULL, 0, NULL, 0, NULL, 0), JEGHATUF_NO_IMAGE, 0);
}

/* The calls on runs and on records of their own. */
static void on_runs(void) {
    uint8_t out[64];
    hold("with_offset", jeghatuf_with_offset(NULL, 0, 0, NULL, 0, NULL, 0), JEGHATUF_TOO_SHORT, 0);
    hold("with_offset", jeghatuf_with_offset(NULL, 0, 0, out, sizeof out, NULL, 0), JEGHATUF_ACCEPTED, 0);
    hold("without_offset", jeghatuf_without_offset(NULL, 0, NULL, 0, NULL, 0), JEGHATUF_MISPLACED_OFFSET, 0);
    hold("log_freeze", jeghatuf_log_freeze(NULL, 0, NULL, 0, NULL, 0, NULL, 0), JEGHATUF_ACCEPTED, 0);
    hold("history", jeghatuf_history(NULL, 0, 0, NULL, 0), JEGHATUF_OVER_A_LIMIT, 0);
    hold("history", jeghatuf_history(LEVEL, sizeof LEVEL, 0, NULL, 0), JEGHATUF_ACCEPTED, 0);
    hold("history", jeghatuf_history(LEVEL, sizeof LEVEL, 1, NULL, 0), JEGHATUF_TOO_SHORT, 0);
    hold("kafka_read", jeghatuf_kafka_read(NULL, 0, NULL, 0, NULL, 0), JEGHATUF_PAST_THE_END, 0);
    hold("kafka_write", jeghatuf_kafka_write(NULL, 0, NULL, 0), JEGHATUF_PAST_THE_END, 0);
    hold("kafka_write", jeghatuf_kafka_write(LEVEL, sizeof LEVEL, NULL, 0), JEGHATUF_TOO_SHORT, 0);
}

/* The calls on an image, the other lists being without elements. */
static void on_image(uint8_t *image, size_t len) {
    uint8_t second[JEGHATUF_LEAST_CAPACITY + 12], out[64];
    hold("is_image", jeghatuf_is_image(image, len), 0, 1);
    hold("validate", jeghatuf_validate(image, len, NULL, 0), JEGHATUF_PAST_THE_END, 0);
    hold("apply", jeghatuf_apply(image, len, 0, NULL, 0), JEGHATUF_PAST_THE_END, 0);
    hold("apply", jeghatuf_apply(image, len, 0, LEVEL, sizeof LEVEL), JEGHATUF_ACCEPTED, 0);
    hold("snapshot", jeghatuf_snapshot(image, len, NULL, 0), JEGHATUF_TOO_SHORT, 0);
    hold("downgrade", jeghatuf_downgrade(image, len, 0, NULL, 0), JEGHATUF_ACCEPTED, 0);
    hold("topic", jeghatuf_topic(image, len, NULL, 0, NULL, 0), JEGHATUF_ACCEPTED, 0);
    hold("topic_by_id", jeghatuf_topic_by_id(image, len, ID, NULL, 0), JEGHATUF_ACCEPTED, 0);
    hold("partition", jeghatuf_partition(image, len, NULL, 0, 0, NULL, 0), JEGHATUF_ACCEPTED, 0);
    hold("broker", jeghatuf_broker(image, len, 0, NULL, 0), JEGHATUF_ACCEPTED, 0);
    hold("freeze", jeghatuf_freeze(image, len, NULL, 0, NULL, 0), JEGHATUF_ACCEPTED, 0);
    hold("freezes", jeghatuf_freezes(image, len, NULL, 0, NULL, 0, NULL, 0), JEGHATUF_ACCEPTED, 0);
    hold("view_snapshot", jeghatuf_view_snapshot(image, len, NULL, 0, NULL, 0), JEGHATUF_ACCEPTED, 0);
    hold("view_topic", jeghatuf_view_topic(image, len, NULL, 0, NULL, 0, NULL, 0), JEGHATUF_NOT_VISIBLE, 0);
    hold("view_partition", jeghatuf_view_partition(image, len, NULL, 0, NULL, 0, 0, NULL, 0), JEGHATUF_NOT_VISIBLE, 0);
    hold("view_freeze", jeghatuf_view_freeze(image, len, NULL, 0, NULL, 0, NULL, 0), JEGHATUF_NOT_VISIBLE, 0);
    hold("throttle", jeghatuf_throttle(image, len, 0, 3, NULL, 0), JEGHATUF_WRONG, 0);
    hold("throttle", jeghatuf_throttle(image, len, 0, 2, NULL, 0), JEGHATUF_ACCEPTED, 0);
    hold("features_epoch", jeghatuf_features_epoch(image, len, NULL, 0), JEGHATUF_ACCEPTED, 0);
    hold("log_offset", jeghatuf_log_offset(image, len, NULL, 0), JEGHATUF_ACCEPTED, 0);
    hold("short_count", jeghatuf_short_count(image, len), JEGHATUF_ACCEPTED, 0);
    hold("restore", jeghatuf_restore(second, sizeof second, NULL, 0, NULL, 0), JEGHATUF_MISPLACED_OFFSET, 0);
    hold("is_image", jeghatuf_is_image(second, sizeof second), 0, 1);
    hold("compare", jeghatuf_compare(image, len, second, len, NULL, 0, NULL, 0, NULL, 0), JEGHATUF_ACCEPTED, 0);
    hold("compare", jeghatuf_compare(image, len, second, len, LEVEL, sizeof LEVEL, NULL, 0, NULL, 0),
         JEGHATUF_ACCEPTED, 1);
    hold("snapshot", jeghatuf_snapshot(image, len, out, sizeof out), JEGHATUF_ACCEPTED, 14);
}

int main(void) {
    uint8_t image[JEGHATUF_LEAST_CAPACITY + 12];
    without_image();
    on_runs();
    hold("open", jeghatuf_open(image, sizeof image), JEGHATUF_ACCEPTED, 0);
    on_image(image, sizeof image);
    printf("lists that are null: %u calls, %u wrong\n", calls, wrong);
    return wrong != 0;
}
