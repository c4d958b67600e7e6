/* Puts two keys, decides them, folds them into the snapshot, looks one up, and then two in one call; then writes the log's image, and
 * reads it back. Then a node that is alone ends its first round, and leads. */
#include "kotuseraw.h"
#include <stdio.h>

int main(void) {
    static uint64_t log[KOTUSERAW_LOG_WORDS], snapshot[KOTUSERAW_SNAPSHOT_WORDS];
    static uint8_t image[KOTUSERAW_IMAGE_ROOM];
    const uint64_t entries[] = {7, 70, 8, 80};
    const uint64_t keys[] = {9, 7};
    uint64_t replies[2 * KOTUSERAW_REPLY_WIDTH];
    kotuseraw_index none = {0}, two = {2};

    kotuseraw_reply r = kotuseraw_fresh(0, log, KOTUSERAW_LOG_WORDS, snapshot, KOTUSERAW_SNAPSHOT_WORDS);
    r = kotuseraw_append_entries_with_batching(r.index, log, KOTUSERAW_LOG_WORDS, snapshot, KOTUSERAW_SNAPSHOT_WORDS, entries, 4);
    r = kotuseraw_set_decided_idx(r.index, log, KOTUSERAW_LOG_WORDS, snapshot, KOTUSERAW_SNAPSHOT_WORDS, two);
    r = kotuseraw_compact(
        r.index, log, KOTUSERAW_LOG_WORDS, snapshot, KOTUSERAW_SNAPSHOT_WORDS, KOTUSERAW_SNAPSHOT, false, none);
    kotuseraw_said found = kotuseraw_lookup(r.index, log, KOTUSERAW_LOG_WORDS, snapshot, KOTUSERAW_SNAPSHOT_WORDS, 8);
    if (found.told == KOTUSERAW_FOUND_PLACE)
        printf("refused %d, place %d\n", (int)found.number, (int)found.first);
    kotuseraw_lookup_many(
        r.index, log, KOTUSERAW_LOG_WORDS, snapshot, KOTUSERAW_SNAPSHOT_WORDS, keys, 2, replies, 2 * KOTUSERAW_REPLY_WIDTH);
    for (size_t i = 0; i < 2; i++)
        printf("%d is told %d%s", (int)keys[i],
               (int)kotuseraw_reply_at(replies, 2 * KOTUSERAW_REPLY_WIDTH, i).told, i == 0 ? ", " : "\n");
    r = kotuseraw_set_decided_idx(r.index, log, KOTUSERAW_LOG_WORDS, snapshot, KOTUSERAW_SNAPSHOT_WORDS, none);
    printf("refused %d, carrying %d\n", (int)r.said.number, (int)r.said.carried);
    kotuseraw_said wrote =
        kotuseraw_write_image(r.index, log, KOTUSERAW_LOG_WORDS, snapshot, KOTUSERAW_SNAPSHOT_WORDS, image, KOTUSERAW_IMAGE_ROOM);
    r = kotuseraw_read_image(0, image, wrote.first, log, KOTUSERAW_LOG_WORDS, snapshot, KOTUSERAW_SNAPSHOT_WORDS);
    printf("an image of %d bytes, accepted %d\n", (int)wrote.first, (int)r.said.first);

    kotuseraw_election_config config = {.configuration_id = 1, .pid = 5};
    kotuseraw_ballot promise = {0};
    kotuseraw_election_reply node = kotuseraw_election_with(config, keys, 0, false, promise);
    node = kotuseraw_election_hb_timeout(node.election, promise);
    printf("in round %d, told %d, node %d leads\n", (int)node.election.hb_round, (int)node.said.told, (int)node.election.leader.pid);
    return 0;
}
