/* Every call of the proved library, for C and whatever calls as C does: link libhost.a, which `rt lib` makes in
 * crates/host/out. Records and requests go by value; a slice is a pointer and a length, in words or in bytes as its pointer says.
 * docs/HOST.md is the reference.
 *
 * What a caller owes: a pointer is valid for its length, aligned and not null, also where the length is 0; a slice that is written
 * overlaps no other that is lent to the same call; a bool is 0 or 1. Any other value of any word is answered. */
#ifndef KOTUSERAW_H
#define KOTUSERAW_H

#include <stdbool.h>
#include <stddef.h>
#include <stdint.h>

#ifdef __cplusplus
extern "C" {
#endif

#define KOTUSERAW_LOG_WORDS 2048
#define KOTUSERAW_SNAPSHOT_WORDS 1024
/* Bytes of the largest image. */
#define KOTUSERAW_IMAGE_ROOM 30881
/* Keys that one lookup may ask for, and the words of each reply. */
#define KOTUSERAW_MOST_ASKED 64
#define KOTUSERAW_REPLY_WIDTH 1
/* Of an election: peers of a node, replies of a round, and outgoing messages at most. */
#define KOTUSERAW_PEERS 6
#define KOTUSERAW_REPLIES 16
#define KOTUSERAW_OUTGOING 32
/* The second word of an entry whose key is removed. */
#define KOTUSERAW_REMOVED UINT64_MAX
/* Whether a compaction folds. */
#define KOTUSERAW_TRIM false
#define KOTUSERAW_SNAPSHOT true

/* What is told of a key. On a log with a hole unknown says only that the log no longer holds it. */
enum kotuseraw_found { KOTUSERAW_FOUND_UNKNOWN, KOTUSERAW_FOUND_PLACE, KOTUSERAW_FOUND_REMOVED };

/* The number of a change in the log. */
typedef struct {
    uint64_t value;
} kotuseraw_index;

/* The number of a block on disk, below 2^48. */
typedef struct {
    uint64_t value;
} kotuseraw_place;

typedef struct {
    uint32_t config_id;
    uint32_t n;
    uint32_t priority;
    uint64_t pid;
} kotuseraw_ballot;

/* What is past the counts is zero. */
typedef struct {
    uint32_t config_id;
    size_t node_count;
    uint64_t nodes[7];
    bool metadata_held;
    size_t metadata_len;
    uint8_t metadata[32];
} kotuseraw_stopsign;

/* A log's numbers, beside its words. */
typedef struct {
    uint64_t batch_size;
    size_t retained;
    size_t batched;
    kotuseraw_index compacted;
    kotuseraw_index decided;
    kotuseraw_ballot promise;
    kotuseraw_ballot accepted_round;
    bool snapshot_held;
    size_t keys;
    bool stop_held;
    kotuseraw_stopsign stop;
} kotuseraw_record;

/* Number 0: the call stands, and where `told` is not 0 `first` and `second` are what it tells. Any other: the refusal, and what it
 * carries. */
typedef struct {
    uint64_t number;
    uint64_t carried;
    uint64_t told;
    uint64_t first;
    uint64_t second;
} kotuseraw_said;

/* What a call says, and the record after it. */
typedef struct {
    kotuseraw_said said;
    kotuseraw_record index;
} kotuseraw_reply;

/* What a read says: where `told` is 1, the marker (0: none; 1: trimmed; 2: a snapshot), the part of the lent log in entries, and the
 * stop-sign. */
typedef struct {
    uint64_t number;
    uint64_t carried;
    uint64_t told;
    uint64_t marker;
    uint64_t index;
    size_t keys;
    size_t first;
    size_t count;
    size_t decided;
    bool stop;
    bool stop_decided;
} kotuseraw_shown;

/* One end of a range, kind 0: included; 1: excluded; 2: none. */
typedef struct {
    uint64_t kind;
    kotuseraw_index index;
} kotuseraw_bound;

/* An operation, kind 0 AppendEntries, 1 AppendOnPrefix, 2 SetPromise, 3 SetDecidedIndex, 4 SetAcceptedRound, 5 SetCompactedIdx, 6 Trim,
 * 7 SetStopsign, 8 SetSnapshot. Fields that its kind does not use are not looked at. */
typedef struct {
    uint64_t kind;
    kotuseraw_index index;
    kotuseraw_ballot ballot;
    bool given;
} kotuseraw_op;

/* The first `count` of eight operations. */
typedef struct {
    size_t count;
    kotuseraw_op ops[8];
} kotuseraw_ops;

/* What is lent beside an operation list and its entries: a snapshot's number of keys, and a stop-sign, or none. */
typedef struct {
    bool snapshot_lent;
    size_t keys;
    bool stop_lent;
    kotuseraw_stopsign stop;
} kotuseraw_lent;

/* A sync's log part, kind 0: without a snapshot; 1: with a complete one; 2: with a delta. */
typedef struct {
    kotuseraw_index sync_idx;
    uint64_t kind;
    size_t keys;
    bool stop_held;
    kotuseraw_stopsign stopsign;
} kotuseraw_sync;

/* A reply to a heartbeat: of which round, and where its sender stood. */
typedef struct {
    uint32_t round;
    kotuseraw_ballot ballot;
    kotuseraw_ballot leader;
    bool happy;
} kotuseraw_heartbeat_reply;

/* A message from one node to another: a reply, or a request, of which nothing but the round is looked at. */
typedef struct {
    uint64_t from;
    uint64_t to;
    bool is_reply;
    kotuseraw_heartbeat_reply reply;
} kotuseraw_message;

/* Of each list the first `count` are held, and the others are zero. */
typedef struct {
    size_t count;
    uint64_t held[KOTUSERAW_PEERS];
} kotuseraw_peers;

typedef struct {
    size_t count;
    kotuseraw_heartbeat_reply held[KOTUSERAW_REPLIES];
} kotuseraw_replies;

typedef struct {
    size_t count;
    kotuseraw_message held[KOTUSERAW_OUTGOING];
} kotuseraw_outgoing;

/* The state of a node's election. */
typedef struct {
    uint32_t configuration_id;
    uint64_t pid;
    kotuseraw_peers peers;
    uint32_t hb_round;
    kotuseraw_replies heartbeat_replies;
    kotuseraw_replies prev_replies;
    kotuseraw_ballot current_ballot;
    kotuseraw_ballot leader;
    bool happy;
    kotuseraw_outgoing outgoing;
} kotuseraw_election;

/* What a node starts from, beside its peers. */
typedef struct {
    uint32_t configuration_id;
    uint64_t pid;
    uint32_t priority;
} kotuseraw_election_config;

/* What a call of the election says, and the state after it. */
typedef struct {
    kotuseraw_said said;
    kotuseraw_election election;
} kotuseraw_election_reply;

/* The same with the messages that it hands out; none where it is refused. */
typedef struct {
    kotuseraw_said said;
    kotuseraw_outgoing outgoing;
    kotuseraw_election election;
} kotuseraw_election_taken;

/* What a call says that hands out a ballot, zeros where it is refused; or replies, none where it is refused. */
typedef struct {
    kotuseraw_said said;
    kotuseraw_ballot ballot;
} kotuseraw_election_ballot;

typedef struct {
    kotuseraw_said said;
    kotuseraw_replies replies;
} kotuseraw_election_ballots;

/* The order of ballots, and forms. */
/* 0: the first is less; 1: they are equal; 2: it is greater. */
uint64_t kotuseraw_ballot_cmp(kotuseraw_ballot a, kotuseraw_ballot b);
bool kotuseraw_ballot_eq(kotuseraw_ballot a, kotuseraw_ballot b);
bool kotuseraw_place_formed(uint64_t w);
bool kotuseraw_entries_formed(const uint64_t *s, size_t s_len);
bool kotuseraw_sign_formed(kotuseraw_stopsign s);
bool kotuseraw_snapshot_formed(const uint64_t *s, size_t s_len, size_t keys);

/* Snapshots: folds and merges written out, a key found, and the two that a log gives. */
kotuseraw_said kotuseraw_fold(const uint64_t *entries, size_t entries_len, uint64_t *out, size_t out_len);
kotuseraw_said kotuseraw_merge(
    const uint64_t *a, size_t a_len,
    size_t n,
    const uint64_t *b, size_t b_len,
    size_t m,
    uint64_t *out, size_t out_len);
/* Told a kotuseraw_found; first the place. */
kotuseraw_said kotuseraw_find(const uint64_t *s, size_t s_len, size_t keys, uint64_t key);
kotuseraw_said kotuseraw_create_snapshot(
    kotuseraw_record index,
    const uint64_t *log, size_t log_len,
    const uint64_t *snapshot, size_t snapshot_len,
    kotuseraw_index idx,
    uint64_t *out, size_t out_len);
/* Told 1: nothing; 2: a complete snapshot; 3: a delta. First its keys, second log-decided. */
kotuseraw_said kotuseraw_create_diff_snapshot(
    kotuseraw_record index,
    const uint64_t *log, size_t log_len,
    const uint64_t *snapshot, size_t snapshot_len,
    kotuseraw_index from,
    uint64_t *out, size_t out_len);

/* A state as a whole. */
bool kotuseraw_well_formed(kotuseraw_record index, const uint64_t *log, size_t log_len, const uint64_t *snapshot, size_t snapshot_len);
kotuseraw_reply kotuseraw_fresh(uint64_t batch_size, uint64_t *log, size_t log_len, uint64_t *snapshot, size_t snapshot_len);
kotuseraw_reply kotuseraw_load_cache(kotuseraw_record index, uint64_t *log, size_t log_len, const uint64_t *snapshot, size_t snapshot_len);
kotuseraw_said kotuseraw_get_accepted_idx(
    kotuseraw_record index,
    const uint64_t *log, size_t log_len,
    const uint64_t *snapshot, size_t snapshot_len);
kotuseraw_said kotuseraw_get_decided_idx_without_stopsign(
    kotuseraw_record index,
    const uint64_t *log, size_t log_len,
    const uint64_t *snapshot, size_t snapshot_len);
kotuseraw_said kotuseraw_stopsign_is_decided(
    kotuseraw_record index,
    const uint64_t *log, size_t log_len,
    const uint64_t *snapshot, size_t snapshot_len);

/* The stored image of a log. */
/* Writes it, the batch left out, to the front of `out`; bytes after it stay. Told 1: first how many bytes it has. Refused with 12, and
 * with 13 where `out` is too short: KOTUSERAW_IMAGE_ROOM bytes are always enough. */
kotuseraw_said kotuseraw_write_image(
    kotuseraw_record index,
    const uint64_t *log, size_t log_len,
    const uint64_t *snapshot, size_t snapshot_len,
    uint8_t *out, size_t out_len);
/* Reads one into a log of this batch size, over whatever its words held. Told 1: first the accepted index. Refused with 11; with 14 where the
 * format is unknown; with 15, carrying the offset of the first record that is bad or of the first byte left over. Where it is refused
 * no word has changed, and the record is that of a fresh log of batch size 0: keep your own. Of a file the first KOTUSERAW_IMAGE_ROOM + 1
 * bytes say as much as all of it. */
kotuseraw_reply kotuseraw_read_image(
    uint64_t batch_size,
    const uint8_t *bytes, size_t bytes_len,
    uint64_t *log, size_t log_len,
    uint64_t *snapshot, size_t snapshot_len);

/* The calls that change a log. */
/* Where `removed` is set the place is not looked at. */
kotuseraw_reply kotuseraw_append_entry_with_batching(
    kotuseraw_record index,
    uint64_t *log, size_t log_len,
    const uint64_t *snapshot, size_t snapshot_len,
    uint64_t key,
    bool removed,
    kotuseraw_place place);
kotuseraw_reply kotuseraw_append_entries_with_batching(
    kotuseraw_record index,
    uint64_t *log, size_t log_len,
    const uint64_t *snapshot, size_t snapshot_len,
    const uint64_t *entries, size_t entries_len);
kotuseraw_reply kotuseraw_append_entries_and_get_accepted_idx(
    kotuseraw_record index,
    uint64_t *log, size_t log_len,
    const uint64_t *snapshot, size_t snapshot_len,
    const uint64_t *entries, size_t entries_len);
kotuseraw_reply kotuseraw_append_entries_without_batching(
    kotuseraw_record index,
    uint64_t *log, size_t log_len,
    const uint64_t *snapshot, size_t snapshot_len,
    const uint64_t *entries, size_t entries_len);
kotuseraw_reply kotuseraw_flush_batch(
    kotuseraw_record index,
    const uint64_t *log, size_t log_len,
    const uint64_t *snapshot, size_t snapshot_len);
kotuseraw_reply kotuseraw_flush_batch_and_get_entries(
    kotuseraw_record index,
    const uint64_t *log, size_t log_len,
    const uint64_t *snapshot, size_t snapshot_len);
kotuseraw_reply kotuseraw_append_stopsign(
    kotuseraw_record index,
    const uint64_t *log, size_t log_len,
    const uint64_t *snapshot, size_t snapshot_len,
    kotuseraw_stopsign ss);
/* Where `held` is not set the stop-sign is taken away, and `ss` is not looked at. */
kotuseraw_reply kotuseraw_set_stopsign(
    kotuseraw_record index,
    const uint64_t *log, size_t log_len,
    const uint64_t *snapshot, size_t snapshot_len,
    bool held,
    kotuseraw_stopsign ss);
kotuseraw_reply kotuseraw_set_promise(
    kotuseraw_record index,
    const uint64_t *log, size_t log_len,
    const uint64_t *snapshot, size_t snapshot_len,
    kotuseraw_ballot n_prom);
kotuseraw_reply kotuseraw_set_decided_idx(
    kotuseraw_record index,
    const uint64_t *log, size_t log_len,
    const uint64_t *snapshot, size_t snapshot_len,
    kotuseraw_index idx);
/* A snapshot where `folds` is set, else a trim, which drops the held snapshot too where it passes the compacted index: its words
 * become zero. Where `given` is not set it goes over all that is decided but a stop-sign, and `idx` is not looked at. */
kotuseraw_reply kotuseraw_compact(
    kotuseraw_record index,
    uint64_t *log, size_t log_len,
    uint64_t *snapshot, size_t snapshot_len,
    bool folds,
    bool given,
    kotuseraw_index idx);
/* Where `held` is not set there is no log part, and of what is lent only the slices' lengths are looked at. */
kotuseraw_reply kotuseraw_sync_log(
    kotuseraw_record index,
    uint64_t *log, size_t log_len,
    uint64_t *snapshot, size_t snapshot_len,
    kotuseraw_ballot accepted_round,
    kotuseraw_index decided_idx,
    bool held,
    kotuseraw_sync log_sync,
    const uint64_t *incoming, size_t incoming_len,
    const uint64_t *suffix, size_t suffix_len);

/* Operation lists. */
kotuseraw_reply kotuseraw_write_list(
    kotuseraw_record index,
    uint64_t *log, size_t log_len,
    uint64_t *snapshot, size_t snapshot_len,
    const uint64_t *entries, size_t entries_len,
    const uint64_t *incoming, size_t incoming_len,
    kotuseraw_lent lent,
    kotuseraw_ops ops);
/* `backend::write_atomically`, of the same list as a slice. */
kotuseraw_reply kotuseraw_write_atomically(
    kotuseraw_record index,
    uint64_t *log, size_t log_len,
    uint64_t *snapshot, size_t snapshot_len,
    const uint64_t *entries, size_t entries_len,
    const uint64_t *incoming, size_t incoming_len,
    kotuseraw_lent lent,
    kotuseraw_ops ops);

/* Decide and trim on a record where it stands. */
kotuseraw_said kotuseraw_in_place_set_decided_idx(
    kotuseraw_record *held,
    const uint64_t *log, size_t log_len,
    const uint64_t *snapshot, size_t snapshot_len,
    kotuseraw_index idx);
kotuseraw_said kotuseraw_in_place_trim(
    kotuseraw_record *held,
    uint64_t *log, size_t log_len,
    uint64_t *snapshot, size_t snapshot_len,
    bool given,
    kotuseraw_index idx);

/* The calls that read a log and change nothing. */
/* Told a kotuseraw_found; first the place. */
kotuseraw_said kotuseraw_lookup(
    kotuseraw_record index,
    const uint64_t *log, size_t log_len,
    const uint64_t *snapshot, size_t snapshot_len,
    uint64_t key);
/* What kotuseraw_lookup says of each of at most KOTUSERAW_MOST_ASKED keys, KOTUSERAW_REPLY_WIDTH words a key, to the front of
 * `replies`; the words after them stay. */
kotuseraw_said kotuseraw_lookup_many(
    kotuseraw_record index,
    const uint64_t *log, size_t log_len,
    const uint64_t *snapshot, size_t snapshot_len,
    const uint64_t *keys, size_t keys_len,
    uint64_t *replies, size_t replies_len);
/* The i-th of those replies, told as kotuseraw_lookup tells it; unknown where there are not so many. */
kotuseraw_said kotuseraw_reply_at(const uint64_t *replies, size_t replies_len, size_t i);
kotuseraw_shown kotuseraw_read(
    kotuseraw_record index,
    const uint64_t *log, size_t log_len,
    const uint64_t *snapshot, size_t snapshot_len,
    kotuseraw_bound from,
    kotuseraw_bound to);
kotuseraw_shown kotuseraw_read_decided_suffix(
    kotuseraw_record index,
    const uint64_t *log, size_t log_len,
    const uint64_t *snapshot, size_t snapshot_len,
    kotuseraw_index from);
kotuseraw_said kotuseraw_get_entries(
    kotuseraw_record index,
    const uint64_t *log, size_t log_len,
    const uint64_t *snapshot, size_t snapshot_len,
    kotuseraw_index from,
    kotuseraw_index to);
kotuseraw_said kotuseraw_get_suffix(
    kotuseraw_record index,
    const uint64_t *log, size_t log_len,
    const uint64_t *snapshot, size_t snapshot_len,
    kotuseraw_index from);
size_t kotuseraw_entries_of(const uint64_t *log, size_t log_len, size_t first, size_t count, uint64_t *out, size_t out_len);
/* The entries that a read's answer shows. */
size_t kotuseraw_entries_shown(const uint64_t *log, size_t log_len, kotuseraw_shown shown, uint64_t *out, size_t out_len);
/* The entries of a read, from the call that gives reply and entries in one value. */
size_t kotuseraw_read_entries(
    kotuseraw_record index,
    const uint64_t *log, size_t log_len,
    const uint64_t *snapshot, size_t snapshot_len,
    kotuseraw_bound from,
    kotuseraw_bound to,
    uint64_t *out, size_t out_len);

bool kotuseraw_election_well_formed(kotuseraw_election e);
/* A node that starts or, where `given`, starts again with the leader that it had promised to. Where it is refused the state is all zeros. */
kotuseraw_election_reply kotuseraw_election_with(
    kotuseraw_election_config config,
    const uint64_t *peers, size_t peers_len,
    bool given,
    kotuseraw_ballot leader);
kotuseraw_election_reply kotuseraw_election_set_priority(kotuseraw_election e, uint32_t p);
/* Takes the messages: the state after it has none. */
kotuseraw_election_taken kotuseraw_election_outgoing_mut(kotuseraw_election e);
kotuseraw_election_reply kotuseraw_election_handle(kotuseraw_election e, kotuseraw_message m);
kotuseraw_election_reply kotuseraw_election_new_hb_round(kotuseraw_election e);
/* The end of a round. Told 1: the node leads, by the ballot that the state then has. */
kotuseraw_election_reply kotuseraw_election_hb_timeout(kotuseraw_election e, kotuseraw_ballot promise);
kotuseraw_election_ballot kotuseraw_election_get_current_ballot(kotuseraw_election e);
/* The replies of the round before. */
kotuseraw_election_ballots kotuseraw_election_get_ballots(kotuseraw_election e);

#ifdef __cplusplus
}
#endif

#endif
