/* Checks the files a, b and p of a folder, and prints the guard in words, or the refusal.
 * usage: check FOLDER
 * status: 0 accepted, 1 refused, 2 all else */
#include <dulgaverk.h>
#include <stdio.h>
#include <string.h>

/* A file that is longer than its limit fills all of `bytes`, which is one byte more, and is refused for its length. */
static int load(const char *folder, const char *name, uint8_t *bytes, size_t most, size_t *length) {
    char path[4096];
    if (strlen(folder) + strlen(name) + 2 > sizeof path) return 0;
    sprintf(path, "%s/%s", folder, name);
    FILE *file = fopen(path, "rb");
    if (!file) return 0;
    *length = fread(bytes, 1, most, file);
    int read = !ferror(file);
    fclose(file);
    return read;
}

static uint8_t a[DULGAVERK_BUNDLE + 1], b[DULGAVERK_BUNDLE + 1], p[DULGAVERK_PROOF + 1];
static uint8_t guard[DULGAVERK_FORMULA], words[DULGAVERK_TEXT];

int main(int count, char **arguments) {
    size_t a_length, b_length, p_length;
    if (count != 2 || !load(arguments[1], "a", a, sizeof a, &a_length) ||
        !load(arguments[1], "b", b, sizeof b, &b_length) || !load(arguments[1], "p", p, sizeof p, &p_length)) {
        fputs("usage: check FOLDER, which has the files a, b and p\n", stderr);
        return 2;
    }
    dulgaverk_write_result checked = dulgaverk_check(a, a_length, b, b_length, p, p_length, guard, sizeof guard);
    dulgaverk_answer answer = checked.answer;
    if (answer.number != DULGAVERK_ACCEPTED) {
        printf("refused %d file %d at %zu: %s\n", answer.number, answer.file, answer.place,
               dulgaverk_meaning(answer.number));
        return fflush(stdout) ? 2 : 1;
    }
    dulgaverk_write_result printed = dulgaverk_print_words(guard, checked.count, words, sizeof words);
    if (printed.answer.number != DULGAVERK_ACCEPTED) return 2;
    printf("%.*s\n", (int)printed.count, (const char *)words);
    return fflush(stdout) ? 2 : 0;
}
