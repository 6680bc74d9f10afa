/* Splits the key that seals checkpoints among trustees, merges their shares to the key, and renews a
 * set of shares, whose key stays as it is. For trustees, on a computer without a network.
 *
 * Usage: key_shares split K N KEY-FILE PREFIX
 *        key_shares merge KEY-FILE SHARE-FILE..
 *        key_shares renewal SHARE-FILE PREFIX
 *        key_shares renew NEW-SHARE-FILE SHARE-FILE RENEWAL-FILE
 *
 * split writes N shares of the key to PREFIX.1 to PREFIX.N, of which any K give the key. merge writes
 * the key that the first K share files give, in whatever order; it takes up to 16, all of one set.
 * renewal writes N renewal files, PREFIX.1 to PREFIX.N, for the set that the share file is of; any of
 * its share files will do, for only the name, K and N in it are used. Then each trustee runs renew,
 * alone, with the renewal file that has the number of his share: it writes his share of a new set,
 * which has the same key, K and N.
 * Exit status: 0 all is written, 1 a file or number is refused, or reading or writing fails, 2 wrong
 * use. New files are readable by their owner alone and replace no other; of a run that fails none is
 * left.
 *
 * A key file has 32 bytes, a share file 43:
 *
 *     bytes 0 to 7    the name of the set: random, the same in all its shares
 *     byte 8          K
 *     byte 9          N
 *     byte 10         the share's number, 1 to N
 *     bytes 11 to 42  the share
 *
 * and a renewal file 51:
 *
 *     bytes 0 to 7    the name of the set that it renews
 *     bytes 8 to 50   as a share file: the name of the new set, K, N, the number of the share that it
 *                     renews, and what is added to that share, a share of a key of 32 zeros
 *
 * The names are there so that by mistake no shares of two sets are mixed, and no renewal is applied
 * twice or to another set. They are no protection: a share that is forged or damaged, in a share file
 * or a renewal file, gives another key, without a message.
 *
 * renew leaves the old share file and the renewal file as they are. Trustees destroy both, but not
 * before K of them have renewed and a merge of new shares has given the key; old shares give it too,
 * until fewer than K are left. A trustee who missed a renewal can apply it later, as long as he has
 * his renewal file; renewals are applied in their order. Without that file his share is lost for the
 * set. All apply the same renewals: two renewals of one set make two sets, which do not go together.
 *
 * A renewal file turns the old share with its number into the new one, and the new one into the old.
 * Whoever keeps the renewal files, or the computer on which they were made, can do so with every
 * share: for him, shares stolen before and after the renewal go together. K-1 renewal files give the
 * others, because their key is known.
 *
 * The coefficients and the names are read from /dev/urandom, which is outside the proved part. That
 * fewer than K shares say nothing of the key, and that old shares do not go together with new ones,
 * needs coefficients of which every value is as likely as any other, and which nobody keeps.
 */
#define _POSIX_C_SOURCE 200809L /* for umask */

#include "access_node.h"

#include <errno.h>
#include <stdio.h>
#include <string.h>
#include <sys/stat.h>

#define RANDOM_SOURCE "/dev/urandom"
#define OUT_OF_RANGE "not from 2 to 16, or K is above N"
#define IN_FILE_OUT_OF_RANGE "K or N in it is " OUT_OF_RANGE

enum {
    FAILED = 1,
    WRONG_USE = 2,
    KEY_SIZE = ACCESS_NODE_KEY_SIZE,
    MOST = ACCESS_NODE_MOST_SHARES,
    /* The parts of a share file. Up to the number it is the same for all shares of a set. */
    NAME_SIZE = 8,
    AT_K = NAME_SIZE,
    AT_N,
    AT_NUMBER,
    AT_SHARE,
    SHARE_FILE_SIZE = AT_SHARE + KEY_SIZE,
    /* A renewal file is a name before what is laid out as a share file. */
    RENEWAL_FILE_SIZE = NAME_SIZE + SHARE_FILE_SIZE,
    PATH_SIZE = 4096
};

/* All that tells something of a key, in one place, so that every way out of the program clears it. */
static struct {
    uint8_t key[KEY_SIZE];
    uint8_t coefficients[KEY_SIZE * (MOST - 1)];
    uint8_t shares[KEY_SIZE * MOST];
    uint8_t share_file[SHARE_FILE_SIZE];
    uint8_t renewal_file[RENEWAL_FILE_SIZE];
} secret;

/* Volatile, because a compiler may leave out stores that nothing reads. What passed through registers
 * and the stack is out of reach here. */
static void clear_secret(void) {
    volatile uint8_t *bytes = (volatile uint8_t *)&secret;
    for (size_t i = 0; i < sizeof secret; i++)
        bytes[i] = 0;
}

static int fail(const char *where, const char *what) {
    fprintf(stderr, "key_shares: %s: %s\n", where, what);
    return FAILED;
}

/* A number in decimal digits that fits 32 bits. */
static int read_number(const char *text, uint32_t *number) {
    uint64_t sum = 0;
    if (*text == '\0')
        return 0;
    for (; *text != '\0'; text++) {
        if (*text < '0' || *text > '9')
            return 0;
        sum = 10 * sum + (uint64_t)(*text - '0');
        if (sum > UINT32_MAX)
            return 0;
    }
    *number = (uint32_t)sum;
    return 1;
}

/* Without a buffer of the C library, where a copy of the bytes would stay. */
static FILE *open_file(const char *path, const char *mode) {
    FILE *file = fopen(path, mode);
    if (file != NULL)
        setvbuf(file, NULL, _IONBF, 0);
    return file;
}

/* Reads a file that has this size and no other; `otherwise` is the message where it has. */
static int read_file(const char *path, uint8_t *bytes, size_t size, const char *otherwise) {
    FILE *file = open_file(path, "rb");
    if (file == NULL)
        return fail(path, strerror(errno));
    size_t got = fread(bytes, 1, size, file);
    int ends = got == size && fgetc(file) == EOF;
    int error = ferror(file) ? errno : 0;
    fclose(file);
    if (error != 0)
        return fail(path, strerror(error));
    return ends ? 0 : fail(path, otherwise);
}

static int read_share_file(const char *path) {
    return read_file(path, secret.share_file, sizeof secret.share_file,
                     "no share file, which has 43 bytes");
}

static int read_random(uint8_t *bytes, size_t size) {
    FILE *file = open_file(RANDOM_SOURCE, "rb");
    if (file == NULL)
        return fail(RANDOM_SOURCE, strerror(errno));
    size_t got = fread(bytes, 1, size, file);
    fclose(file);
    return got == size ? 0 : fail(RANDOM_SOURCE, "gave too few bytes");
}

static void remove_file(const char *path) {
    if (remove(path) != 0)
        fail(path, "is left and can't be removed");
}

/* Writes a new file, and removes it where not all of it can be written. */
static int write_file(const char *path, const uint8_t *bytes, size_t size) {
    FILE *file = open_file(path, "wbx");
    if (file == NULL)
        return fail(path, strerror(errno));
    int error = fwrite(bytes, 1, size, file) == size ? 0 : errno;
    if (fclose(file) != 0 && error == 0)
        error = errno;
    if (error == 0)
        return 0;
    remove_file(path);
    return fail(path, strerror(error));
}

/* The path of the file for a share in a buffer of PATH_SIZE bytes. */
static int put_path(char *path, const char *prefix, uint32_t number) {
    int length = snprintf(path, PATH_SIZE, "%s.%u", prefix, (unsigned)number);
    return length > 0 && length < PATH_SIZE;
}

/* Writes the file for a share: number and share go to its end, which is laid out as a share file. */
static int write_share(const char *prefix, uint32_t number, uint8_t *file, size_t size) {
    char path[PATH_SIZE];
    if (!put_path(path, prefix, number))
        return fail("PREFIX", "too long for a path");
    uint8_t *share_file = file + size - SHARE_FILE_SIZE;
    share_file[AT_NUMBER] = (uint8_t)number;
    memcpy(share_file + AT_SHARE, secret.shares + KEY_SIZE * (size_t)(number - 1), KEY_SIZE);
    return write_file(path, file, size);
}

/* Removes the files for the first shares, all of which this run wrote. */
static int remove_shares(const char *prefix, uint32_t count) {
    char path[PATH_SIZE];
    for (uint32_t number = 1; number <= count; number++)
        if (put_path(path, prefix, number))
            remove_file(path);
    return FAILED;
}

static int write_shares(const char *prefix, uint32_t n, uint8_t *file, size_t size) {
    for (uint32_t number = 1; number <= n; number++)
        if (write_share(prefix, number, file, size) != 0)
            return remove_shares(prefix, number - 1);
    return 0;
}

/* Removes the files where what printf returned, or the flush, says that their line is not out. */
static int close_line(int printed, const char *prefix, uint32_t n) {
    if (printed >= 0 && fflush(stdout) == 0)
        return 0;
    fail("standard output", strerror(errno));
    return remove_shares(prefix, n);
}

/* Splits the key in its place with new coefficients, and begins a share file of a new set. `origin`
 * is where K and N are from, and `refused` the message where they are out of range. More coefficients
 * are drawn than the call uses where K is below 16. */
static int draw_shares(uint32_t k, uint32_t n, const char *origin, const char *refused,
                       uint8_t *share_file) {
    if (read_random(secret.coefficients, sizeof secret.coefficients) != 0 ||
        read_random(share_file, NAME_SIZE) != 0)
        return FAILED;
    uint32_t returned = node_shares_split(secret.key, sizeof secret.key, k, n, secret.coefficients,
                                          sizeof secret.coefficients, secret.shares, sizeof secret.shares);
    if (ACCESS_NODE_ANSWER(returned) != ACCESS_NODE_OK)
        return fail(origin, refused);
    share_file[AT_K] = (uint8_t)k;
    share_file[AT_N] = (uint8_t)n;
    return 0;
}

static int split(uint32_t k, uint32_t n, const char *key_path, const char *prefix) {
    if (read_file(key_path, secret.key, sizeof secret.key, "no key, which has 32 bytes") != 0 ||
        draw_shares(k, n, "K and N", OUT_OF_RANGE, secret.share_file) != 0 ||
        write_shares(prefix, n, secret.share_file, sizeof secret.share_file) != 0)
        return FAILED;
    int printed = printf("%u shares, any %u of them give the key\n", (unsigned)n, (unsigned)k);
    return close_line(printed, prefix, n);
}

/* Says why the merge of this many share files, of which this is the first, is refused. */
static int refuse_merge(uint32_t answer, const char *first, unsigned k, size_t files) {
    if (answer == ACCESS_NODE_OUT_OF_RANGE)
        return fail(first, IN_FILE_OUT_OF_RANGE);
    if (answer == ACCESS_NODE_BAD_SHARE_NUMBER)
        return fail("share files", "a share comes twice, or its number is not from 1 to N");
    fprintf(stderr, "key_shares: %u share files are needed, not %zu\n", k, files);
    return FAILED;
}

/* Every file is held to the first; the call takes the first K of them. */
static int merge(const char *key_path, char **paths, size_t files) {
    uint8_t head[AT_NUMBER], numbers[MOST];
    for (size_t i = 0; i < files; i++) {
        if (read_share_file(paths[i]) != 0)
            return FAILED;
        if (i == 0)
            memcpy(head, secret.share_file, sizeof head);
        if (memcmp(head, secret.share_file, sizeof head) != 0)
            return fail(paths[i], "not of the same split as the first share file");
        numbers[i] = secret.share_file[AT_NUMBER];
        memcpy(secret.shares + KEY_SIZE * i, secret.share_file + AT_SHARE, KEY_SIZE);
    }
    uint32_t returned = node_shares_merge(head[AT_K], head[AT_N], numbers, files, secret.shares,
                                          KEY_SIZE * files, secret.key, sizeof secret.key);
    if (ACCESS_NODE_ANSWER(returned) != ACCESS_NODE_OK)
        return refuse_merge(ACCESS_NODE_ANSWER(returned), paths[0], head[AT_K], files);
    return write_file(key_path, secret.key, sizeof secret.key);
}

/* The key that is split is zero, as the key's place is from the start. */
static int renewal(const char *share_path, const char *prefix) {
    if (read_share_file(share_path) != 0)
        return FAILED;
    uint32_t k = secret.share_file[AT_K], n = secret.share_file[AT_N];
    memcpy(secret.renewal_file, secret.share_file, NAME_SIZE);
    if (draw_shares(k, n, share_path, IN_FILE_OUT_OF_RANGE, secret.renewal_file + NAME_SIZE) != 0 ||
        write_shares(prefix, n, secret.renewal_file, sizeof secret.renewal_file) != 0)
        return FAILED;
    int printed = printf("%u renewal files, each for the share with its number\n", (unsigned)n);
    return close_line(printed, prefix, n);
}

/* Says why the renewal file is not one for the share file. */
static int check_renewal(const char *path) {
    const uint8_t *share_file = secret.share_file, *renewed = secret.renewal_file + NAME_SIZE;
    if (memcmp(renewed, share_file, NAME_SIZE) == 0)
        return fail(path, "applied to this share file before");
    if (memcmp(secret.renewal_file, share_file, NAME_SIZE) != 0)
        return fail(path, "not for the set of this share file; renewals are applied in their order");
    if (memcmp(renewed + AT_K, share_file + AT_K, AT_NUMBER - AT_K) != 0)
        return fail(path, "not for the K and N of this share file");
    if (renewed[AT_NUMBER] != share_file[AT_NUMBER])
        return fail(path, "not for the number of this share file");
    return 0;
}

/* With the sum in place of its own share, the renewal file holds the new share file. */
static int renew(const char *new_path, const char *share_path, const char *renewal_path) {
    uint8_t *renewed = secret.renewal_file + NAME_SIZE;
    if (read_share_file(share_path) != 0 ||
        read_file(renewal_path, secret.renewal_file, sizeof secret.renewal_file,
                  "no renewal file, which has 51 bytes") != 0 ||
        check_renewal(renewal_path) != 0)
        return FAILED;
    uint32_t returned = node_shares_add(secret.share_file + AT_SHARE, KEY_SIZE, renewed + AT_SHARE,
                                        KEY_SIZE, secret.shares, KEY_SIZE);
    if (ACCESS_NODE_ANSWER(returned) != ACCESS_NODE_OK)
        return fail("node_shares_add", "gave no sum");
    memcpy(renewed + AT_SHARE, secret.shares, KEY_SIZE);
    return write_file(new_path, renewed, SHARE_FILE_SIZE);
}

static int run(int words, char **word) {
    uint32_t k = 0, n = 0;
    if (words == 6 && strcmp(word[1], "split") == 0 && read_number(word[2], &k) &&
        read_number(word[3], &n))
        return split(k, n, word[4], word[5]);
    if (words >= 4 && words <= 3 + MOST && strcmp(word[1], "merge") == 0)
        return merge(word[2], word + 3, (size_t)words - 3);
    if (words == 4 && strcmp(word[1], "renewal") == 0)
        return renewal(word[2], word[3]);
    if (words == 5 && strcmp(word[1], "renew") == 0)
        return renew(word[2], word[3], word[4]);
    fprintf(stderr, "usage: key_shares split K N KEY-FILE PREFIX (2 <= K <= N <= 16)\n"
                    "       key_shares merge KEY-FILE SHARE-FILE.. (up to 16)\n"
                    "       key_shares renewal SHARE-FILE PREFIX\n"
                    "       key_shares renew NEW-SHARE-FILE SHARE-FILE RENEWAL-FILE\n");
    return WRONG_USE;
}

int main(int words, char **word) {
    umask(077);
    int status = run(words, word);
    clear_secret();
    return status;
}
