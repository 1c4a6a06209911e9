// Makes each call of the header: bindings/check compiles this as C99 and as C++17, and runs it. The status is 0 if the library is of the
// header's version, lays requests and texts out as the header does, and answers each call.
#include <string.h>

#include "cats.h"

#if CATS_VERSION_MAJOR < 0 || CATS_VERSION_MINOR < 0 || CATS_VERSION_PATCH < 0
#error "a version has no sign"
#endif

// Prices and bids by which the answers to the calls differ.
static const char *const file = "goods 2\nbids 2\ndummy 0\n0 3e0 0 #\n1 4.0000004 1 #\n", *const rounded = "goods 2\nbids 2\ndummy 0\n0 3 0 #\n1 4 1 #\n";

static uint8_t space[1000], err_space[100];
static struct cats_buffer out = {space, sizeof space, 0}, err = {err_space, sizeof err_space, 0};
static int wrong = 0;

// Compares what a call returned and wrote, as far as it fits.
static void expect(uint8_t status, uint8_t wanted, const char *wanted_out, const char *wanted_err) {
    wrong += status != wanted || out.needed != strlen(wanted_out) || err.needed != strlen(wanted_err);
    wrong += memcmp(space, wanted_out, out.needed < out.size ? out.needed : out.size) != 0 || memcmp(err_space, wanted_err, err.needed) != 0;
}

int main(void) {
    const uint16_t goods[] = {1, 0}, no_good[] = {2};
    const uint32_t bids[] = {1, 0};
    struct cats_text texts[2] = {cats_text_of((const uint8_t *)file, strlen(file)), cats_text_of((const uint8_t *)rounded, strlen(rounded))};
    struct cats_text text = texts[1], named = texts[0];
    struct cats_request request = cats_request_of(CATS_NORMALISE);
    named.name = "one";
    named.name_length = 3;

    wrong += cats_version() != CATS_VERSION_NUMBER || sizeof request != 56 || sizeof text != 32;
    expect(cats_check(text, &out, &err), CATS_DONE, "goods 2 bids 2 dummy 0\n", "");
    expect(cats_fault(named, &out, &err), CATS_REFUSED,
           "one:4:3: NotANumber: 3e0\na price with an exponent is read with `--round`\n", "");
    expect(cats_show(text, &out, &err), CATS_DONE, "goods 2\nbids 2\ndummy 0\n0\t3\t0\t#\n1\t4\t1\t#\n", "");
    expect(cats_value(text, goods, 2, &out, &err), CATS_DONE, "or 7 0 1\n", "");
    expect(cats_value(text, no_good, 1, &out, &err), CATS_WRONG_USAGE, "", "good 2 out of range\n");
    expect(cats_value(text, NULL, 0, &out, &err), CATS_DONE, "or 0\n", "");
    expect(cats_revenue(text, bids, 2, &out, &err), CATS_DONE, "revenue 7\n", "");
    expect(cats_revenue(text, NULL, 0, &out, &err), CATS_DONE, "revenue 0\n", "");
    expect(cats_normalise(text, &out, &err), CATS_DONE, "goods 2\nbids 2\ndummy 0\n0\t3\t0\t#\n1\t4\t1\t#\n", "");
    expect(cats_explain(text, &out, &err), CATS_DONE, "bid\tdummy\tprice\tgoods\treason\tkept\tby\n0\t\t3\t0\tkeep\t0\t\n1\t\t4\t1\tkeep\t1\t\n", "");
    expect(cats_round(texts[0], false, &out, &err), CATS_DONE, rounded, "line 5: 4.0000004 rounded to 4\n");
    expect(cats_round(texts[0], true, &out, &err), CATS_REFUSED, "", "line 5: TooFine\n");
    expect(cats_compare(texts[0], text, &out, &err), CATS_REFUSED, "", "first: line 4: NotANumber\n");
    expect(cats_diff(text, text, &out, &err), CATS_DONE, "kind\tgoods\tleft\tright\tleft_dummy\tright_dummy\tleft_bid\tright_bid\n", "");
    expect(cats_duplicates(texts, 2, &out, &err), CATS_REFUSED, "", "1: line 4: NotANumber\n");
    expect(cats_duplicates(NULL, 0, &out, &err), CATS_DONE, "", "");
    expect(cats_sizes(texts + 1, 1, &out, &err), CATS_DONE,
           "goods\tbids\tor_bids\txor_bidders\tdummies\tkept\tkept_or\tkept_xor\tfault\tfile\n2\t2\t2\t0\t0\t2\t2\t0\t\t1\n", "");
    cats_lp(text, &out, &err);
    wrong += out.needed < 9 || memcmp(space, "\\ revenue", 9) != 0;

    request.prices = CATS_ROUNDED;
    out.size = 9;
    expect(cats_run(&request, &named, 1, &out, &err), CATS_DONE, "goods 2\nbids 2\ndummy 0\n0\t3\t0\t#\n1\t4\t1\t#\n", "one: 1 price rounded\n");
    out.bytes = NULL;
    out.size = 0;
    expect(cats_check(cats_text_of(NULL, 0), &out, &err), CATS_REFUSED, "", "line 1: Missing\n");
    return wrong ? 1 : 0;
}
