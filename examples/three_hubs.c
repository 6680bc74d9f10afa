/* How firmware uses the node: three hubs are commissioned, grant a login by vote, answer queries
 * and end the login again; wrong entries lock one door of a hub and not the other; one hub is lost
 * and comes back from a checkpoint, under a new life, which votes once the park has voted a rejoin,
 * two days after its proposal; the park sets notices of its own; the list fills up, and a grant takes
 * the row of a login that is over.
 *
 * The radio and the seal module are played by this program: what a hub votes for is put on the next
 * sheet as a row.
 */
#include "access_node.h"

#include <stdio.h>
#include <stdlib.h>
#include <string.h>

enum { HUBS = 3, RIGHT = 0, LOGIN = 501, WRONG_LOGIN = 105, PRESENT = 2, MOST_MISSES = 10 };

/* The logins of a season, numbered from SEASON on; with LOGIN they fill the list. */
enum { SEASON = 601, SEASON_LOGINS = ACCESS_NODE_MOST_LOGINS - 1 };

/* The place of a record's kind; its upper byte is 0. */
enum { KIND_AT = 2 };

/* What a hub keeps from call to call. Two buffers, since no call works in place. */
struct hub {
    uint8_t image[ACCESS_NODE_IMAGE_SIZE];
    uint8_t next[ACCESS_NODE_IMAGE_SIZE];
};

static struct hub hubs[HUBS];

/* Writes a number as `size` bytes, lowest first, and returns the place behind it. */
static uint8_t *put(uint8_t *at, uint32_t value, int size) {
    for (; size > 0; size--, value >>= 8)
        *at++ = (uint8_t)value;
    return at;
}

/* The length field, which counts what follows it, and the kind. */
static uint8_t *put_head(uint8_t *record, size_t size, uint32_t kind) {
    return put(put(record, (uint32_t)size - 2, 2), kind, 2);
}

/* Stops where the node answered otherwise than it should. */
static void expect(uint32_t answer, uint32_t wanted) {
    if (answer != wanted) {
        printf("%u was expected, and not %u\n", (unsigned)wanted, (unsigned)answer);
        exit(1);
    }
}

/* Prints what happened. */
static void step(const char *what, uint32_t answer, uint32_t wanted) {
    printf("%-56s %3u\n", what, (unsigned)answer);
    expect(answer, wanted);
}

/* The image that a call wrote is the one to hand to the next call. A vault stores it here, before
 * the vote is sent or the door is opened. */
static uint32_t keep(struct hub *hub, uint32_t returned) {
    if (ACCESS_NODE_WRITES_IMAGE(returned))
        memcpy(hub->image, hub->next, sizeof hub->image);
    return ACCESS_NODE_ANSWER(returned);
}

static uint32_t start_hub(int seat, uint32_t life, const uint8_t *checkpoint, size_t length) {
    uint8_t start[ACCESS_NODE_START_SIZE];
    put(put(put_head(start, sizeof start, ACCESS_NODE_KIND_START), (uint32_t)seat, 1), life, 4);
    struct hub *hub = &hubs[seat];
    return keep(hub, node_start(checkpoint, length, start, sizeof start,
                                hub->next, sizeof hub->next));
}

/* Delivers an announcement with a sheet that has trustee 0 of both levels, and a row at life 1 for
 * each of the first `rows` seats. */
static uint32_t deliver(int seat, const uint8_t *announcement, int rows) {
    uint8_t sheet[ACCESS_NODE_SHEET_SIZE(HUBS)];
    size_t size = (size_t)ACCESS_NODE_SHEET_SIZE(rows);
    uint8_t *at = put_head(sheet, size, ACCESS_NODE_KIND_SHEET);
    at = put(put(put(at, 1, 1), 1, 1), (uint32_t)rows, 1);
    for (int row = 0; row < rows; row++)
        at = put(put(at, (uint32_t)row, 1), 1, 4);
    struct hub *hub = &hubs[seat];
    return keep(hub, node_deliver(hub->image, sizeof hub->image,
                                  announcement, ACCESS_NODE_ANNOUNCEMENT_SIZE, sheet, size,
                                  hub->next, sizeof hub->next));
}

/* Each hub performs what seats 0 and 1 voted for. */
static void all_perform(const char *what, const uint8_t *announcement) {
    for (int seat = 0; seat < HUBS; seat++)
        step(what, deliver(seat, announcement, 2), ACCESS_NODE_OK);
}

/* What the panel of a door asks. A hub with one door may use ACCESS_NODE_KIND_QUERY instead, which
 * has no byte for the door and means door 0. */
static uint32_t ask_at(uint32_t door, int seat, uint32_t login, uint32_t day) {
    uint8_t query[ACCESS_NODE_DOOR_QUERY_SIZE];
    uint8_t *at = put_head(query, sizeof query, ACCESS_NODE_KIND_DOOR_QUERY);
    put(put(put(put(at, login, 4), day, 4), RIGHT, 1), door, 1);
    struct hub *hub = &hubs[seat];
    return keep(hub, node_query(hub->image, sizeof hub->image, query, sizeof query,
                                hub->next, sizeof hub->next));
}

static uint32_t ask(int seat, uint32_t day) {
    return ask_at(0, seat, LOGIN, day);
}

/* An announcement with 12 argument bytes, unused ones zero. Returns the place of the arguments. */
static uint8_t *announce(uint8_t *record, uint32_t kind, uint32_t cycle, uint32_t day) {
    memset(record, 0, ACCESS_NODE_ANNOUNCEMENT_SIZE);
    return put(put(put_head(record, ACCESS_NODE_ANNOUNCEMENT_SIZE, kind), cycle, 4), day, 4);
}

/* The park's first checkpoint: cycle 1, day 100, one trustee per level, m 0, k 2, S 30, three
 * present seats at life 1, empty lists. It was made before there were notices, so these are 7 and 2
 * days. A new park names its own behind S, under ACCESS_NODE_KIND_CHECKPOINT. */
static void first_checkpoint(uint8_t *checkpoint, size_t length) {
    memset(checkpoint, 0, length);
    uint8_t *at = put_head(checkpoint, length, ACCESS_NODE_KIND_EARLIER_CHECKPOINT);
    at = put(put(at, 1, 4), 100, 4);
    at = put(put(put(put(put(at, 1, 1), 1, 1), 0, 1), 2, 1), 30, 2);
    for (int seat = 0; seat < HUBS; seat++)
        at = put(put(at, PRESENT, 1), 1, 4);
}

static void grant_to(uint8_t *record, uint32_t login, uint32_t end, uint32_t cycle, uint32_t day) {
    uint8_t *at = announce(record, ACCESS_NODE_KIND_GRANT, cycle, day);
    put(put(put(at, login, 4), end, 4), 1u << RIGHT, 2);
}

static void grant_by_vote(void) {
    uint8_t grant[ACCESS_NODE_ANNOUNCEMENT_SIZE];
    grant_to(grant, LOGIN, 400, 1, 101);
    for (int seat = 0; seat < HUBS; seat++)
        step("each hub votes for the grant", deliver(seat, grant, 0), ACCESS_NODE_VOTED);
    step("two votes are a quorum of three: hub 0 performs", deliver(0, grant, 2), ACCESS_NODE_OK);
    step("hub 1 performs", deliver(1, grant, 2), ACCESS_NODE_OK);
    step("hub 0 answers open", ask(0, 110), ACCESS_NODE_OK);
    step("hub 2 has not heard of it", ask(2, 110), ACCESS_NODE_NOT_LISTED);
}

static void lock_a_door(void) {
    for (int entry = 0; entry < MOST_MISSES; entry++)
        step("a wrong entry at door 1 of hub 0", ask_at(1, 0, WRONG_LOGIN, 110),
             ACCESS_NODE_NOT_LISTED);
    step("ten lock that door, for the right login too", ask_at(1, 0, LOGIN, 110),
         ACCESS_NODE_LOCKED);
    step("door 0 of hub 0 still opens", ask_at(0, 0, LOGIN, 110), ACCESS_NODE_OK);
}

static void lose_and_restart(void) {
    uint8_t checkpoint[ACCESS_NODE_CHECKPOINT_SIZE];
    step("hub 2 is lost; hub 0 gives its checkpoint",
         node_checkpoint(hubs[0].image, sizeof hubs[0].image, checkpoint, sizeof checkpoint),
         ACCESS_NODE_OK);
    step("whose kind has the notices of the park", checkpoint[KIND_AT],
         ACCESS_NODE_KIND_CHECKPOINT);
    step("hub 2 starts from it with a new vault, life 2",
         start_hub(2, 2, checkpoint, sizeof checkpoint), ACCESS_NODE_OK);
    step("it answers from the park's list", ask(2, 110), ACCESS_NODE_OK);
}

/* An action that needs a notice, with its arguments, which its proposal has too. */
struct noticed {
    uint32_t kind;
    void (*put_arguments)(uint8_t *at);
};

static void put_rejoin(uint8_t *at) { /* seat 2, life 2 */
    put(put(at, 2, 1), 2, 4);
}

/* m 0, k 2, S 30, an ordinary notice of 3 days, and 0 for the restart notice, which keeps it. */
static void put_minima(uint8_t *at) {
    put(put(put(put(put(at, 0, 1), 2, 1), 30, 2), 3, 1), 0, 1);
}

static void put_certify(uint8_t *at) { /* seat 3, life 1 */
    put(put(at, 3, 1), 1, 4);
}

static const struct noticed REJOIN = {ACCESS_NODE_KIND_REJOIN, put_rejoin};
static const struct noticed MINIMA = {ACCESS_NODE_KIND_MINIMA, put_minima};
static const struct noticed CERTIFY = {ACCESS_NODE_KIND_CERTIFY, put_certify};

static void propose(uint8_t *record, struct noticed action, uint32_t cycle, uint32_t day) {
    uint8_t *at = announce(record, ACCESS_NODE_KIND_PROPOSE, cycle, day);
    action.put_arguments(put(at, action.kind, 2));
}

/* The action is refused a day before its proposal is as old as its notice, and then performed. */
static void act_on_time(struct noticed action, uint32_t cycle, uint32_t day, const char *early,
                        const char *then) {
    uint8_t record[ACCESS_NODE_ANNOUNCEMENT_SIZE];
    action.put_arguments(announce(record, action.kind, cycle, day - 1));
    step(early, deliver(0, record, 2), ACCESS_NODE_NOT_NOTICED);
    action.put_arguments(announce(record, action.kind, cycle, day));
    all_perform(then, record);
}

static void rejoin_by_vote(void) {
    uint8_t proposal[ACCESS_NODE_ANNOUNCEMENT_SIZE];
    propose(proposal, REJOIN, 2, 102);
    step("it can't vote before a rejoin names its life", deliver(2, proposal, 0),
         ACCESS_NODE_CANNOT_VOTE);
    all_perform("each hub performs the proposal of that rejoin", proposal);
    step("which unlocks door 1 of hub 0", ask_at(1, 0, LOGIN, 110), ACCESS_NODE_OK);
    act_on_time(REJOIN, 3, 104, "one day later is too early for the rejoin",
                "after two days each hub performs it");
}

static void set_notices_by_vote(void) {
    uint8_t proposal[ACCESS_NODE_ANNOUNCEMENT_SIZE];
    propose(proposal, MINIMA, 4, 105);
    all_perform("each hub performs the proposal of a shorter notice", proposal);
    act_on_time(MINIMA, 5, 112, "it takes the notice in force: six days are too few",
                "after seven days each hub sets it");
}

static void certify_by_vote(void) {
    uint8_t proposal[ACCESS_NODE_ANNOUNCEMENT_SIZE];
    propose(proposal, CERTIFY, 6, 112);
    all_perform("each hub performs the proposal of a fourth seat", proposal);
    act_on_time(CERTIFY, 7, 115, "two days are too few for it",
                "after three days each hub performs it");
}

/* The cycle after the fourth seat is certified, and the one after the list is full. */
enum { SEASON_CYCLE = 8, FULL_CYCLE = SEASON_CYCLE + SEASON_LOGINS };

/* Each hub performs the grants of the season. The first login ends on day 115, the others on 130. */
static void fill_the_list(void) {
    uint8_t grant[ACCESS_NODE_ANNOUNCEMENT_SIZE];
    for (uint32_t i = 0; i < SEASON_LOGINS; i++) {
        grant_to(grant, SEASON + i, i == 0 ? 115 : 130, SEASON_CYCLE + i, 115);
        for (int seat = 0; seat < HUBS; seat++)
            expect(deliver(seat, grant, 2), ACCESS_NODE_OK);
    }
}

static void grant_to_a_full_list(void) {
    uint8_t grant[ACCESS_NODE_ANNOUNCEMENT_SIZE];
    uint32_t another = SEASON + SEASON_LOGINS;
    fill_the_list();
    grant_to(grant, another, 140, FULL_CYCLE, 115);
    step("the list is full, and no login is over on day 115", deliver(0, grant, 2),
         ACCESS_NODE_TABLE_FULL);
    grant_to(grant, another, 140, FULL_CYCLE, 116);
    all_perform("on day 116 one is, and each hub grants one more", grant);
    step("which took the row of that one", ask_at(0, 0, SEASON, 116), ACCESS_NODE_NOT_LISTED);
}

static void end_by_vote(void) {
    uint8_t end[ACCESS_NODE_ANNOUNCEMENT_SIZE];
    put(announce(end, ACCESS_NODE_KIND_END, FULL_CYCLE + 1, 116), LOGIN, 4);
    step("hub 2 votes again, for the end of the login", deliver(2, end, 0), ACCESS_NODE_VOTED);
    step("hub 0 performs the end", deliver(0, end, 2), ACCESS_NODE_OK);
    step("it no longer lists the login", ask(0, 110), ACCESS_NODE_NOT_LISTED);
    step("hub 1 has not heard of the end and still opens", ask(1, 146), ACCESS_NODE_OK);
    step("but not for a day beyond the silence limit", ask(1, 147), ACCESS_NODE_SILENT);
}

int main(void) {
    uint8_t first[ACCESS_NODE_EARLIER_CHECKPOINT_SIZE];
    first_checkpoint(first, sizeof first);
    for (int seat = 0; seat < HUBS; seat++)
        step("a hub is commissioned", start_hub(seat, 1, first, sizeof first), ACCESS_NODE_OK);
    grant_by_vote();
    lock_a_door();
    lose_and_restart();
    rejoin_by_vote();
    set_notices_by_vote();
    certify_by_vote();
    grant_to_a_full_list();
    end_by_vote();
    return 0;
}
