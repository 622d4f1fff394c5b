/* The entry points of the proved library, libjeghatuf.a, for C99 and C++11.
 *
 * No call asks anything of the bytes that it is given, and none keeps a pointer.
 * A list goes as a pointer and how many elements it has; of a list without
 * elements the pointer may be null. A list that is written to overlaps no other
 * one. A number that goes to value[0], values[1], place[0], read[0] or used[0] is
 * lost where that list has no such element. The library keeps nothing between
 * calls: any thread may make any call, on lists that no other one writes to.
 *
 * Where nothing else is said, an answer is packed: a refusal's number, 0 where
 * there is none, times 2^32, plus a value: the bytes used or written, or a
 * count. A call that refuses leaves its lists as they were; only Restore and the
 * calls on a run of records, where they refuse a record, write: see there.
 *
 * No memory is taken but the stack: see JEGHATUF_STACK. A thread with less of it
 * crashes in the call; no refusal says so.
 */
#ifndef JEGHATUF_H
#define JEGHATUF_H

#include <stddef.h>
#include <stdint.h>

#ifdef __cplusplus
extern "C" {
#endif

/* The version of the library, and of the image's format: the eighth byte of an
 * image. A buffer of an earlier format is no image (JEGHATUF_NO_IMAGE); how to take
 * one along stands at jeghatuf_with_offset. */
#define JEGHATUF_VERSION "0.1.0"
#define JEGHATUF_FORMAT_VERSION 2

/* How many bytes an image has, at least and at most: the length of its buffer is
 * its capacity. */
#define JEGHATUF_LEAST_CAPACITY 144
#define JEGHATUF_MOST_CAPACITY 65536

/* The limits of a record's fields: the bytes of a string, which is UTF-8, and of a
 * signature; the elements of a list or a map, the endpoints or approvals, and the
 * entities of a quota. And the bytes of a record within all of them. */
#define JEGHATUF_STRING_LIMIT 255
#define JEGHATUF_SIGNATURE_LIMIT 512
#define JEGHATUF_LIST_LIMIT 64
#define JEGHATUF_ENDPOINT_LIMIT 16
#define JEGHATUF_ENTITY_LIMIT 8
#define JEGHATUF_MOST_RECORD 33477

/* Where a record's first field begins: behind its kind and its body's length. */
#define JEGHATUF_FIRST_FIELD 3

/* The names of jeghatuf_freezes, the prefixes of a viewer, the records of
 * jeghatuf_history and the records of one of its histories. */
#define JEGHATUF_JOB_LIMIT 256
#define JEGHATUF_PREFIX_LIMIT 8
#define JEGHATUF_RECORD_LIMIT 8
#define JEGHATUF_LENGTH_LIMIT 4

/* The log offset of an image that no record was applied to; what jeghatuf_freezes
 * writes for a name that has no freeze; the node of the configs that hold for the
 * brokers without ones of their own. */
#define JEGHATUF_NO_OFFSET (-1)
#define JEGHATUF_NO_FREEZE 0xFFFF
#define JEGHATUF_DEFAULT_NODE UINT64_C(0xFFFFFFFFFFFFFFFF)

/* The stack that a call needs at most, in bytes: jeghatuf_compare; jeghatuf_apply
 * and jeghatuf_restore; jeghatuf_open, jeghatuf_read, jeghatuf_write and
 * jeghatuf_field; every other call. The caller's own is not counted. JEGHATUF_STACK
 * serves every call. (Measured on x86-64, in threads of falling size: 450, 316, 16 and
 * 72 KB served.) */
#define JEGHATUF_STACK_COMPARE 589824
#define JEGHATUF_STACK_APPLY 393216
#define JEGHATUF_STACK_RECORD 16384
#define JEGHATUF_STACK_OTHER 98304
#define JEGHATUF_STACK JEGHATUF_STACK_COMPARE

/* Why a call refuses. */
enum jeghatuf_refusal {
    JEGHATUF_ACCEPTED = 0,
    /* the buffer is no image, or has no capacity for one */
    JEGHATUF_NO_IMAGE = 1,
    /* a header or a body, or a name of a list, runs past the input */
    JEGHATUF_PAST_THE_END = 2,
    /* an unknown kind; to Validate and Apply, and in a snapshot of the old form, a log offset too */
    JEGHATUF_UNKNOWN_KIND = 3,
    /* a wrong tag, length or value, or a field missing; in a job list a name below the one before it */
    JEGHATUF_WRONG = 4,
    /* over a limit */
    JEGHATUF_OVER_A_LIMIT = 5,
    /* the topic exists: another id or replication factor, or a count not above its stored partitions' number */
    JEGHATUF_TOPIC_EXISTS = 6,
    /* an unknown topic or partition */
    JEGHATUF_UNKNOWN_TOPIC = 7,
    /* a broker's change: another epoch, or an unknown broker */
    JEGHATUF_STALE_CHANGE = 8,
    /* a broker's unregistration: another epoch, or an unknown broker */
    JEGHATUF_STALE_UNREGISTRATION = 9,
    /* an unknown controller */
    JEGHATUF_UNKNOWN_CONTROLLER = 10,
    /* producer ids: the next one is not above the stored one */
    JEGHATUF_NOT_ABOVE = 11,
    /* producer ids: another broker epoch, or an unknown broker */
    JEGHATUF_STALE_PRODUCER = 12,
    /* an empty freeze scope */
    JEGHATUF_EMPTY_SCOPE = 13,
    /* the stored proposal is consumed */
    JEGHATUF_CONSUMED = 14,
    /* the stored proposal is withdrawn */
    JEGHATUF_WITHDRAWN = 15,
    /* the stored proposal's approvals are not the first of the new ones */
    JEGHATUF_NO_EXTENSION = 16,
    /* the sum of a partition's offset leaves its range */
    JEGHATUF_OVERFLOW = 17,
    /* no room: the weight would exceed the capacity */
    JEGHATUF_FULL = 18,
    /* the output is too short */
    JEGHATUF_TOO_SHORT = 19,
    /* a node stands twice in a partition's replicas */
    JEGHATUF_REPEATED = 20,
    /* Apply: the log offset given is not above the image's */
    JEGHATUF_NOT_LATER = 21,
    /* a run of records: the log offset is missing at the start, or stands later */
    JEGHATUF_MISPLACED_OFFSET = 22,
    /* a snapshot of the old form: the log offset given is below -1 */
    JEGHATUF_OFFSET_TOO_LOW = 23,
    /* Validate: a topic's name that Kafka does not allow */
    JEGHATUF_UNLAWFUL_NAME = 24,
    /* a viewer's lookup: the name begins with none of the viewer's prefixes */
    JEGHATUF_NOT_VISIBLE = 25,
    /* a short history: the number is past the last */
    JEGHATUF_PAST_THE_LAST = 26,
    /* Kafka's bytes: a number that Kafka's field cannot hold */
    JEGHATUF_NOT_KAFKAS = 27
};

/* The kinds of record: a record's first byte. */
enum jeghatuf_kind {
    JEGHATUF_TOPIC = 1,
    JEGHATUF_PARTITION = 2,
    JEGHATUF_BROKER_REGISTRATION = 3,
    JEGHATUF_DELETE_TOPIC = 4,
    JEGHATUF_TOPIC_CONFIG = 5,
    JEGHATUF_BROKER_CONFIG = 6,
    JEGHATUF_CLIENT_QUOTA = 7,
    JEGHATUF_PRODUCER_IDS = 8,
    JEGHATUF_UNREGISTER_BROKER = 9,
    JEGHATUF_KRAFT_VERSION = 10,
    JEGHATUF_FEATURE_LEVEL = 11,
    JEGHATUF_CLIENT_METRICS_CONFIG = 12,
    JEGHATUF_FEATURES_EPOCH = 13,
    JEGHATUF_PARTITION_DIR_ASSIGNMENT = 14,
    JEGHATUF_PARTITION_OFFSET_ADVANCE = 15,
    JEGHATUF_GROUP_CONFIG = 16,
    JEGHATUF_CONTROLLER_REGISTRATION = 17,
    JEGHATUF_TOPIC_FREEZE = 18,
    JEGHATUF_BREAK_GLASS_PROPOSAL = 19,
    JEGHATUF_DELETE_BREAK_GLASS_PROPOSAL = 20,
    JEGHATUF_PARTITION_ELR = 21,
    JEGHATUF_PARTITION_RECOVERY = 22,
    JEGHATUF_PARTITION_UPDATE = 23,
    JEGHATUF_BROKER_REGISTRATION_CHANGE = 24,
    JEGHATUF_UNREGISTER_CONTROLLER = 25,
    JEGHATUF_LOG_OFFSET = 26
};

/* The tags of a record's fields, by kind and field, and those of the elements that
 * stand inside a field: endpoints, approvals, entities, pairs and features. Which
 * bytes a field has stands in docs/FORMAT.md. */
enum jeghatuf_tag {
    JEGHATUF_TAG_TOPIC_NAME = 1,
    JEGHATUF_TAG_TOPIC_TOPIC_ID = 2,
    JEGHATUF_TAG_TOPIC_PARTITIONS = 3,
    JEGHATUF_TAG_TOPIC_REPLICATION_FACTOR = 4,
    JEGHATUF_TAG_PARTITION_TOPIC = 1,
    JEGHATUF_TAG_PARTITION_PARTITION = 2,
    JEGHATUF_TAG_PARTITION_LEADER = 3,
    JEGHATUF_TAG_PARTITION_REPLICAS = 4,
    JEGHATUF_TAG_PARTITION_ISR = 5,
    JEGHATUF_TAG_PARTITION_LEADER_EPOCH = 6,
    JEGHATUF_TAG_PARTITION_ADDING_REPLICAS = 7,
    JEGHATUF_TAG_PARTITION_REMOVING_REPLICAS = 8,
    JEGHATUF_TAG_PARTITION_DIRECTORIES = 9,
    JEGHATUF_TAG_PARTITION_PARTITION_EPOCH = 10,
    JEGHATUF_TAG_BROKER_REGISTRATION_NODE_ID = 1,
    JEGHATUF_TAG_BROKER_REGISTRATION_BROKER_EPOCH = 2,
    JEGHATUF_TAG_BROKER_REGISTRATION_INCARNATION_ID = 3,
    JEGHATUF_TAG_BROKER_REGISTRATION_HOST = 4,
    JEGHATUF_TAG_BROKER_REGISTRATION_PORT = 5,
    JEGHATUF_TAG_BROKER_REGISTRATION_RACK = 6,
    JEGHATUF_TAG_BROKER_REGISTRATION_ENDPOINTS = 7,
    JEGHATUF_TAG_BROKER_REGISTRATION_LOG_DIRS = 8,
    JEGHATUF_TAG_BROKER_REGISTRATION_FENCED = 9,
    JEGHATUF_TAG_BROKER_REGISTRATION_IN_CONTROLLED_SHUTDOWN = 10,
    JEGHATUF_TAG_BROKER_REGISTRATION_CORDONED_LOG_DIRS = 11,
    JEGHATUF_TAG_BROKER_REGISTRATION_FEATURES = 12,
    JEGHATUF_TAG_DELETE_TOPIC_NAME = 1,
    JEGHATUF_TAG_TOPIC_CONFIG_TOPIC = 1,
    JEGHATUF_TAG_TOPIC_CONFIG_OVERRIDES = 2,
    JEGHATUF_TAG_BROKER_CONFIG_NODE_ID = 1,
    JEGHATUF_TAG_BROKER_CONFIG_CONFIG_NAME = 2,
    JEGHATUF_TAG_BROKER_CONFIG_CONFIG_VALUE = 3,
    JEGHATUF_TAG_CLIENT_QUOTA_ENTITY = 1,
    JEGHATUF_TAG_CLIENT_QUOTA_CONFIG_KEY = 2,
    JEGHATUF_TAG_CLIENT_QUOTA_CONFIG_VALUE = 3,
    JEGHATUF_TAG_PRODUCER_IDS_BROKER_ID = 1,
    JEGHATUF_TAG_PRODUCER_IDS_BROKER_EPOCH = 2,
    JEGHATUF_TAG_PRODUCER_IDS_NEXT_PRODUCER_ID = 3,
    JEGHATUF_TAG_UNREGISTER_BROKER_NODE_ID = 1,
    JEGHATUF_TAG_UNREGISTER_BROKER_BROKER_EPOCH = 2,
    JEGHATUF_TAG_KRAFT_VERSION_KRAFT_VERSION = 1,
    JEGHATUF_TAG_FEATURE_LEVEL_NAME = 1,
    JEGHATUF_TAG_FEATURE_LEVEL_LEVEL = 2,
    JEGHATUF_TAG_CLIENT_METRICS_CONFIG_NAME = 1,
    JEGHATUF_TAG_CLIENT_METRICS_CONFIG_CONFIGS = 2,
    JEGHATUF_TAG_FEATURES_EPOCH_EPOCH = 1,
    JEGHATUF_TAG_PARTITION_DIR_ASSIGNMENT_TOPIC = 1,
    JEGHATUF_TAG_PARTITION_DIR_ASSIGNMENT_PARTITION = 2,
    JEGHATUF_TAG_PARTITION_DIR_ASSIGNMENT_REPLICA = 3,
    JEGHATUF_TAG_PARTITION_DIR_ASSIGNMENT_DIRECTORY = 4,
    JEGHATUF_TAG_PARTITION_OFFSET_ADVANCE_TOPIC = 1,
    JEGHATUF_TAG_PARTITION_OFFSET_ADVANCE_PARTITION = 2,
    JEGHATUF_TAG_PARTITION_OFFSET_ADVANCE_COUNT = 3,
    JEGHATUF_TAG_GROUP_CONFIG_GROUP_ID = 1,
    JEGHATUF_TAG_GROUP_CONFIG_CONFIGS = 2,
    JEGHATUF_TAG_CONTROLLER_REGISTRATION_NODE_ID = 1,
    JEGHATUF_TAG_CONTROLLER_REGISTRATION_INCARNATION_ID = 2,
    JEGHATUF_TAG_CONTROLLER_REGISTRATION_ZK_MIGRATION_READY = 3,
    JEGHATUF_TAG_CONTROLLER_REGISTRATION_ENDPOINTS = 4,
    JEGHATUF_TAG_CONTROLLER_REGISTRATION_FEATURES = 5,
    JEGHATUF_TAG_TOPIC_FREEZE_SCOPE = 1,
    JEGHATUF_TAG_TOPIC_FREEZE_PATTERN_TYPE = 2,
    JEGHATUF_TAG_TOPIC_FREEZE_FROZEN = 3,
    JEGHATUF_TAG_TOPIC_FREEZE_REASON = 4,
    JEGHATUF_TAG_TOPIC_FREEZE_SET_BY = 5,
    JEGHATUF_TAG_TOPIC_FREEZE_SET_AT_MS = 6,
    JEGHATUF_TAG_TOPIC_FREEZE_PROPOSAL_ID = 7,
    JEGHATUF_TAG_TOPIC_FREEZE_KEY_ID = 8,
    JEGHATUF_TAG_TOPIC_FREEZE_SIGNATURE = 9,
    JEGHATUF_TAG_BREAK_GLASS_PROPOSAL_PROPOSAL_ID = 1,
    JEGHATUF_TAG_BREAK_GLASS_PROPOSAL_ACTION = 2,
    JEGHATUF_TAG_BREAK_GLASS_PROPOSAL_TARGET = 3,
    JEGHATUF_TAG_BREAK_GLASS_PROPOSAL_PROPOSER = 4,
    JEGHATUF_TAG_BREAK_GLASS_PROPOSAL_REASON = 5,
    JEGHATUF_TAG_BREAK_GLASS_PROPOSAL_CREATED_AT_MS = 6,
    JEGHATUF_TAG_BREAK_GLASS_PROPOSAL_EXPIRES_AT_MS = 7,
    JEGHATUF_TAG_BREAK_GLASS_PROPOSAL_APPROVALS = 8,
    JEGHATUF_TAG_BREAK_GLASS_PROPOSAL_CONSUMED_AT_MS = 9,
    JEGHATUF_TAG_BREAK_GLASS_PROPOSAL_WITHDRAWN = 10,
    JEGHATUF_TAG_DELETE_BREAK_GLASS_PROPOSAL_PROPOSAL_ID = 1,
    JEGHATUF_TAG_PARTITION_ELR_TOPIC = 1,
    JEGHATUF_TAG_PARTITION_ELR_PARTITION = 2,
    JEGHATUF_TAG_PARTITION_ELR_ELIGIBLE_LEADER_REPLICAS = 3,
    JEGHATUF_TAG_PARTITION_ELR_LAST_KNOWN_ELR = 4,
    JEGHATUF_TAG_PARTITION_RECOVERY_TOPIC = 1,
    JEGHATUF_TAG_PARTITION_RECOVERY_PARTITION = 2,
    JEGHATUF_TAG_PARTITION_RECOVERY_STATE = 3,
    JEGHATUF_TAG_PARTITION_UPDATE_PARTITION = 1,
    JEGHATUF_TAG_PARTITION_UPDATE_ELIGIBLE_LEADER_REPLICAS = 2,
    JEGHATUF_TAG_PARTITION_UPDATE_LAST_KNOWN_ELR = 3,
    JEGHATUF_TAG_PARTITION_UPDATE_RECOVERY_STATE = 4,
    JEGHATUF_TAG_BROKER_REGISTRATION_CHANGE_NODE_ID = 1,
    JEGHATUF_TAG_BROKER_REGISTRATION_CHANGE_BROKER_EPOCH = 2,
    JEGHATUF_TAG_BROKER_REGISTRATION_CHANGE_FENCED = 3,
    JEGHATUF_TAG_BROKER_REGISTRATION_CHANGE_IN_CONTROLLED_SHUTDOWN = 4,
    JEGHATUF_TAG_BROKER_REGISTRATION_CHANGE_LOG_DIRS = 5,
    JEGHATUF_TAG_BROKER_REGISTRATION_CHANGE_CORDONED_LOG_DIRS = 6,
    JEGHATUF_TAG_UNREGISTER_CONTROLLER_NODE_ID = 1,
    JEGHATUF_TAG_LOG_OFFSET_OFFSET = 1,
    JEGHATUF_TAG_ENDPOINT_NAME = 1,
    JEGHATUF_TAG_ENDPOINT_HOST = 2,
    JEGHATUF_TAG_ENDPOINT_PORT = 3,
    JEGHATUF_TAG_ENDPOINT_PROTOCOL = 4,
    JEGHATUF_TAG_APPROVAL_PRINCIPAL = 1,
    JEGHATUF_TAG_APPROVAL_APPROVED_AT_MS = 2,
    JEGHATUF_TAG_APPROVAL_KEY_ID = 3,
    JEGHATUF_TAG_APPROVAL_SIGNATURE = 4,
    JEGHATUF_TAG_ENTITY_ENTITY_TYPE = 1,
    JEGHATUF_TAG_ENTITY_ENTITY_NAME = 2,
    JEGHATUF_TAG_PAIR_KEY = 1,
    JEGHATUF_TAG_PAIR_VALUE = 2,
    JEGHATUF_TAG_FEATURE_NAME = 1,
    JEGHATUF_TAG_FEATURE_LOW = 2,
    JEGHATUF_TAG_FEATURE_HIGH = 3
};

/* The throttles of a broker: as a leader, as a follower, and between its log
 * directories. */
enum jeghatuf_throttle_kind {
    JEGHATUF_THROTTLE_LEADER = 0,
    JEGHATUF_THROTTLE_FOLLOWER = 1,
    JEGHATUF_THROTTLE_ALTER_LOG_DIRS = 2
};

/* The values of the fields that choose: a freeze's pattern_type, a proposal's
 * action, a recovery's state, a broker's change of fenced, an endpoint's protocol. */
enum jeghatuf_pattern_type {
    JEGHATUF_PATTERN_LITERAL = 0,
    JEGHATUF_PATTERN_PREFIXED = 1
};

enum jeghatuf_action {
    JEGHATUF_ACTION_THAW_TOPIC_FREEZE = 0,
    JEGHATUF_ACTION_UNCLEAN_ELECT_LEADERS = 1,
    JEGHATUF_ACTION_UNCLEAN_RECOVERY = 2,
    JEGHATUF_ACTION_UNREGISTER_BROKER = 3,
    JEGHATUF_ACTION_CANCEL_REASSIGNMENT = 4,
    JEGHATUF_ACTION_DELETE_TOPIC = 5,
    JEGHATUF_ACTION_DELETE_RECORDS = 6
};

enum jeghatuf_recovery {
    JEGHATUF_RECOVERY_RECOVERED = 0,
    JEGHATUF_RECOVERY_RECOVERING = 1
};

enum jeghatuf_fencing {
    JEGHATUF_FENCING_UNFENCE = 0,
    JEGHATUF_FENCING_NONE = 1,
    JEGHATUF_FENCING_FENCE = 2
};

enum jeghatuf_protocol {
    JEGHATUF_PROTOCOL_PLAINTEXT = 0,
    JEGHATUF_PROTOCOL_SSL = 1,
    JEGHATUF_PROTOCOL_SASL_PLAINTEXT = 2,
    JEGHATUF_PROTOCOL_SASL_SSL = 3
};

/* The refusal of a packed answer, and its value. */
static inline enum jeghatuf_refusal jeghatuf_refusal_of(uint64_t answer) {
    return (enum jeghatuf_refusal)(answer >> 32);
}
static inline uint32_t jeghatuf_value_of(uint64_t answer) { return (uint32_t)answer; }

/* Records. */

/* Reads the record at the start of the input. The bytes used. Kind 26, a log
 * offset, is read and written too. Refuses by 2, 3; then by 4, 5 or 20, by the
 * first faulty field. Below, these are Read's refusals. */
uint64_t jeghatuf_read(const uint8_t *input, size_t input_len);

/* Writes a record of a kind: the tags of its fields, the length of each, and
 * their values back to back. The bytes written. Refuses by 3; then by 4, 5 or 20,
 * by the first faulty field; 19. */
uint64_t jeghatuf_write(uint8_t kind, const uint8_t *tags, size_t tags_len, const uint16_t *lengths,
                        size_t lengths_len, const uint8_t *values, size_t values_len, uint8_t *out,
                        size_t out_len);

/* Seeks a field by its tag, one of enum jeghatuf_tag, from the place `at` on. Not
 * packed: 1 where there is one, place[0] getting the place of its value and place[1]
 * how long that is; else 0. Never refuses. The fields of a record, of which
 * jeghatuf_read says how many bytes it has, begin at JEGHATUF_FIRST_FIELD. Where a
 * field repeats, the next one is found from the end of a value on. The fields of an
 * element or of a nested partition begin at the place of its value, and the bytes are
 * to end where it does. */
uint64_t jeghatuf_field(const uint8_t *bytes, size_t bytes_len, size_t at, uint8_t tag, uint64_t *place,
                        size_t place_len);

/* Images: buffers of JEGHATUF_LEAST_CAPACITY to JEGHATUF_MOST_CAPACITY bytes. A call
 * on a buffer that is no image refuses by 1, whatever its bytes are. */

/* Makes a buffer a fresh image, whatever it held. The value is 0. Refuses by 1, on
 * the capacity alone. */
uint64_t jeghatuf_open(uint8_t *buffer, size_t buffer_len);

/* Not packed: 1 where the buffer is an image, else 0. Never refuses. */
uint64_t jeghatuf_is_image(const uint8_t *buffer, size_t buffer_len);

/* Whether the record at the start of the input may be applied. The value is 0.
 * Refuses by 1; Read's; 24; 6 to 16. */
uint64_t jeghatuf_validate(const uint8_t *image, size_t image_len, const uint8_t *input, size_t input_len);

/* Applies the record at the start of the input, whose log offset is an int64_t
 * by its bits: above the image's, else 21. The image then has this offset. The
 * value is 0. It does not validate. Refuses by 1; Read's; 21; 17, 18. */
uint64_t jeghatuf_apply(uint8_t *image, size_t image_len, uint64_t offset, const uint8_t *input,
                        size_t input_len);

/* Restarts. */

/* Writes the image's log offset, a record of kind 26, and its records. The bytes
 * written: at most as many as the image has. Refuses by 1, 19. */
uint64_t jeghatuf_snapshot(const uint8_t *image, size_t image_len, uint8_t *out, size_t out_len);

/* Makes a buffer the image of the records of the input, at the log offset that
 * these start with, whatever the buffer held. The value is 0. Where a record is
 * refused, by 22 also where the log offset is missing at the start or stands later,
 * place[0] gets the byte that it begins at, and the buffer becomes the image of the
 * records before it. Where the buffer has no capacity for an image (1), both stay as
 * they were. Refuses by 1; of each record by Read's; 22; 17, 18. */
uint64_t jeghatuf_restore(uint8_t *image, size_t image_len, const uint8_t *input, size_t input_len,
                          uint64_t *place, size_t place_len);

/* A snapshot's two forms. The old one, from before images had a log offset, has the
 * records alone; the new one starts with the log offset, an int64_t by its bits. The
 * value of both calls is 0, since a run may be longer than 2^32 bytes. Where a record
 * is refused, the first element of the last list gets the byte that it begins at. */

/* Writes the new form of a run of the old one. value[0] gets the bytes written:
 * 14 more than the run has. What jeghatuf_restore makes of it is the image of an old
 * snapshot. Refuses by 23; of each record by Read's, kind 26 being 3; 19. */
uint64_t jeghatuf_with_offset(const uint8_t *run, size_t run_len, uint64_t offset, uint8_t *out, size_t out_len,
                              uint64_t *value, size_t value_len);

/* Writes the old form of a run of the new one. values[0] gets the bytes written, 14
 * fewer than the run has, values[1] the log offset. Refuses of each record by Read's,
 * 22; then by 19. */
uint64_t jeghatuf_without_offset(const uint8_t *run, size_t run_len, uint8_t *out, size_t out_len,
                                 uint64_t *values, size_t values_len);

/* Writes the records that take an image to a metadata level, an int16_t by its
 * bits. The bytes written. Refuses by 1, 19. */
uint64_t jeghatuf_downgrade(const uint8_t *image, size_t image_len, uint16_t level, uint8_t *out,
                            size_t out_len);

/* Lookups. Those with an output write the record that is sought: the bytes
 * written, 0 where there is none; at most as many as the image has. */

/* The topic of a name. Refuses by 1; the name's 4, 5; 19. */
uint64_t jeghatuf_topic(const uint8_t *image, size_t image_len, const uint8_t *name, size_t name_len,
                        uint8_t *out, size_t out_len);

/* The topic of an id, which has 16 bytes and is never null. Refuses by 1, 19. */
uint64_t jeghatuf_topic_by_id(const uint8_t *image, size_t image_len, const uint8_t *id, uint8_t *out,
                              size_t out_len);

/* The partition of a topic's name and a number, an int32_t by its bits. Refuses by
 * 1; the name's 4, 5; 19. */
uint64_t jeghatuf_partition(const uint8_t *image, size_t image_len, const uint8_t *name, size_t name_len,
                            uint32_t number, uint8_t *out, size_t out_len);

/* The broker of a node. Refuses by 1, 19. */
uint64_t jeghatuf_broker(const uint8_t *image, size_t image_len, uint64_t node, uint8_t *out, size_t out_len);

/* The freeze that covers a topic's name. Refuses by 1; the name's 4, 5; 19. */
uint64_t jeghatuf_freeze(const uint8_t *image, size_t image_len, const uint8_t *name, size_t name_len,
                         uint8_t *out, size_t out_len);

/* The freezes of a list of up to JEGHATUF_JOB_LIMIT names in ascending order,
 * repeats allowed, each as its length in two bytes, the higher first, and its bytes.
 * Two bytes to a name are written: its freeze's index from 0 among the stored freezes
 * in the order of a snapshot, JEGHATUF_NO_FREEZE for none. The bytes written. read[0]
 * gets how many stored freezes were read: of each pattern, in order, those whose scope
 * is not above the last name, and the next one. Refuses by 1; each name's 2, 4, 5 in
 * the list's order; 19. */
uint64_t jeghatuf_freezes(const uint8_t *image, size_t image_len, const uint8_t *list, size_t list_len,
                          uint8_t *out, size_t out_len, uint64_t *read, size_t read_len);

/* The freeze of a name from a run of records, which may start with a log offset:
 * the freeze that the image after them has. The value is 0. value[0] gets the
 * bytes written, or where a record is refused, by 22 also where a log offset
 * stands later, the byte that it begins at. Refuses by the name's 4, 5; of the first
 * record at fault by Read's, 22; 19. */
uint64_t jeghatuf_log_freeze(const uint8_t *run, size_t run_len, const uint8_t *name, size_t name_len,
                             uint8_t *out, size_t out_len, uint64_t *value, size_t value_len);

/* A viewer's part of an image. Its prefixes are up to JEGHATUF_PREFIX_LIMIT strings,
 * each a length of two bytes, the higher one first, and its bytes, in any order. A
 * name is visible where it begins with one of them. */

/* Writes the topics, partitions, offsets, ELR, recovery and topic configs under
 * visible names, in the order of a snapshot, without a log offset. The bytes
 * written. Refuses by 1; each prefix's 2, 4, 5; 19. */
uint64_t jeghatuf_view_snapshot(const uint8_t *image, size_t image_len, const uint8_t *prefixes,
                                size_t prefixes_len, uint8_t *out, size_t out_len);

/* The topic, the partition, and the freeze of a name, as the lookups above; 25
 * where the name is not visible, whether or not it exists. They refuse by 1; each
 * prefix's 2, 4, 5; the name's 4, 5; 25; 19. */
uint64_t jeghatuf_view_topic(const uint8_t *image, size_t image_len, const uint8_t *prefixes,
                             size_t prefixes_len, const uint8_t *name, size_t name_len, uint8_t *out,
                             size_t out_len);
uint64_t jeghatuf_view_partition(const uint8_t *image, size_t image_len, const uint8_t *prefixes,
                                 size_t prefixes_len, const uint8_t *name, size_t name_len,
                                 uint32_t number, uint8_t *out, size_t out_len);
uint64_t jeghatuf_view_freeze(const uint8_t *image, size_t image_len, const uint8_t *prefixes,
                              size_t prefixes_len, const uint8_t *name, size_t name_len, uint8_t *out,
                              size_t out_len);

/* Holds two recordings, runs of records, against each other, from fresh images in
 * both buffers on, whatever they held; their capacities are equal. The records are
 * applied at the offsets 0, 1, .. The value is 1 where the runs part: after value[0]
 * applied records of each the snapshots differ apart from the offset, or one run
 * goes on, has ended or is refused and the other is not so. It is 0 where they
 * agree: after value[0] records both have ended, or are refused by one number. Both
 * buffers are then the images after so many records. Refuses by 1, on the capacities
 * alone. */
uint64_t jeghatuf_compare(uint8_t *first, size_t first_len, uint8_t *second, size_t second_len,
                          const uint8_t *one, size_t one_len, const uint8_t *other, size_t other_len,
                          uint64_t *value, size_t value_len);

/* Of 1 to JEGHATUF_RECORD_LIMIT records the history of length 0 to
 * JEGHATUF_LENGTH_LIMIT under a number from 0: shorter ones first, then by the records'
 * positions, leftmost first. The bytes written. Refuses of each record by Read's; by 5
 * for none or too many; 26 for a number past the last; 19. */
uint64_t jeghatuf_history(const uint8_t *records, size_t records_len, uint64_t number,
                          uint8_t *out, size_t out_len);

/* A record in Kafka's own bytes (TopicRecord, FeatureLevelRecord,
 * ProducerIdsRecord, UnregisterBrokerRecord, version 0, in KIP-631's frame,
 * version 1) as one of ours. The bytes written; used[0] gets how many bytes of the
 * input were used. Refuses part by part by 2, 3, 4, 5; then by 19. */
uint64_t jeghatuf_kafka_read(const uint8_t *input, size_t input_len, uint8_t *out, size_t out_len,
                             uint64_t *used, size_t used_len);

/* One of ours in Kafka's own bytes. The bytes written. Refuses by Read's; by 3 for a
 * kind beyond those four; 27 for a broker from 2^31 on; 19. */
uint64_t jeghatuf_kafka_write(const uint8_t *input, size_t input_len, uint8_t *out,
                              size_t out_len);

/* Puts a node's throttle into value[0], in bytes a second; the kind is one of enum
 * jeghatuf_throttle_kind. The value is 1, or 0 where there is no throttle. Refuses by
 * 1; 4 for another kind. */
uint64_t jeghatuf_throttle(const uint8_t *image, size_t image_len, uint64_t node, uint8_t kind,
                           uint64_t *value, size_t value_len);

/* Puts the features epoch into value[0], an int64_t by its bits. The value is 0.
 * Refuses by 1. */
uint64_t jeghatuf_features_epoch(const uint8_t *image, size_t image_len, uint64_t *value, size_t value_len);

/* Puts the log offset of the last record applied into value[0], an int64_t by its
 * bits: JEGHATUF_NO_OFFSET where there is none. The value is 0. Refuses by 1. */
uint64_t jeghatuf_log_offset(const uint8_t *image, size_t image_len, uint64_t *value, size_t value_len);

/* How many partitions have fewer nodes in their ISR than replicas that are not being
 * added. Refuses by 1. */
uint64_t jeghatuf_short_count(const uint8_t *image, size_t image_len);

#ifdef __cplusplus
}
#endif

#endif
