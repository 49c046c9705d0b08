/* Bundles in boundary.c: outputs of every size, and calls that have to be decided by lengths alone. */

#define GIVE_PARTS(t) GILLACORN_SPREAD_TABLE((t)[0]), GILLACORN_SPREAD_TABLE((t)[1]), GILLACORN_SPREAD_TABLE((t)[2]), \
    GILLACORN_SPREAD_TABLE((t)[3]), GILLACORN_SPREAD_TABLE((t)[4]), GILLACORN_SPREAD_TABLE((t)[5])

static void told(gillacorn_bytes_answer given, uint32_t code, size_t bytes)
{
    if (given.code != code)
        fails("another code");
    if (given.bytes != bytes)
        fails("another number of bytes");
}

/* The bundle of the tables, written to rooms of every size around its own. */
static void bundle_outputs(void)
{
    const gillacorn_table parts[] = {
        gillacorn_given(sections, sizeof sections), gillacorn_absent(), gillacorn_given(omap, sizeof omap),
        gillacorn_absent(), gillacorn_given(NULL, 0), gillacorn_given(new_frames, sizeof new_frames)};
    asked = "gillacorn_bundle_write";
    for (size_t places = 0; places < sizeof bundle + 9; places++) {
        bool fits = places >= sizeof bundle;
        size_t written = fits ? sizeof bundle : 0;
        uint8_t *out = room(AFTER, places, 0);
        group = fits ? "output" : "refused";
        told(gillacorn_bundle_write(GIVE_PARTS(parts), out, places), fits ? GILLACORN_VALUE : GILLACORN_SHORT, sizeof bundle);
        if (memcmp(out, bundle, written) != 0)
            fails("writes something else");
        for (size_t i = written; i < places; i++)
            if (out[i] != 0xEE)
                fails("writes where it must not");
    }
}

/* No byte of these parts can be read, and none of the output touched; `absent` has a bit for each. */
static void write_by_lengths(const size_t *lengths, unsigned absent, size_t places, uint32_t code, size_t bytes)
{
    static uint8_t *unread;
    gillacorn_table parts[6];
    if (unread == NULL)
        unread = untouchable();
    for (int i = 0; i < 6; i++)
        parts[i].present = !(absent >> i & 1), parts[i].bytes = unread, parts[i].length = lengths[i];
    told(gillacorn_bundle_write(GIVE_PARTS(parts), unread, places), code, bytes);
}

#define LARGEST ((size_t)PTRDIFF_MAX) /* of what can be lent */
#define MOST ((size_t)UINT32_MAX - 56) /* of all parts */

static void by_lengths(void)
{
    static const size_t too_large[][6] = {
        {MOST + 1, 0, 0, 0, 0, 0}, {0, 0, 0, 0, 0, MOST + 1}, {MOST, 0, 0, 1, 0, 0}, {0, MOST - 1, 0, 0, 2, 0},
        {(size_t)1 << 32, 0, 0, 0, 0, 0}, {0, 0, (size_t)1 << 32, 0, 0, 0}, {0, 0, 0, 0, LARGEST, 0},
        /* Sums that come round to little in 64 bits, with the trailer's 56 or before it. */
        {LARGEST, LARGEST - 54, 0, 0, 0, 0}, {0, LARGEST, LARGEST, 2, 0, 0}, {1, LARGEST, LARGEST, 1, 0, 0},
        {LARGEST, 0, 0, LARGEST, 0, 0}, {LARGEST / 2 + 1, LARGEST / 2 + 1, LARGEST / 2 + 1, LARGEST / 2 + 1, 0, 0},
        {LARGEST, LARGEST, LARGEST, LARGEST, LARGEST, LARGEST},
        {LARGEST / 2 + 1, LARGEST / 2 + 1, LARGEST / 2 + 1, LARGEST / 2 + 1, LARGEST / 2 + 1, LARGEST / 2 + 1}};
    static const size_t most[][6] = {{0, 0, 0, MOST, 0, 0}, {1, MOST - 2, 0, 0, 0, 1}, {100, 100, 100, 100, 100, 100}};
    static const size_t files[] = {(size_t)1 << 32, ((size_t)1 << 32) + 55, ((size_t)1 << 32) + 56, LARGEST / 2 + 1, LARGEST};
    static const size_t all[] = {LARGEST, LARGEST, LARGEST, LARGEST, LARGEST, LARGEST};

    group = "lengths", asked = "gillacorn_bundle_write";
    for (size_t i = 0; i < sizeof too_large / sizeof *too_large; i++)
        for (size_t places = 0; places < 65; places += 64)
            write_by_lengths(too_large[i], 0, places, GILLACORN_TOO_LARGE, 0);
    for (size_t i = 0; i < sizeof most / sizeof *most; i++) {
        size_t sum = 56;
        for (int part = 0; part < 6; part++)
            sum += most[i][part];
        write_by_lengths(most[i], 0, 0, GILLACORN_SHORT, sum);
        write_by_lengths(most[i], 0, sum - 1, GILLACORN_SHORT, sum);
    }
    /* A length beside an absent mark does not count: without the largest part, there is room. */
    for (unsigned part = 0; part < 6; part++) {
        size_t lengths[6] = {5, 5, 5, 5, 5, 5};
        lengths[part] = LARGEST;
        write_by_lengths(lengths, 1u << part, 80, GILLACORN_SHORT, 81);
    }
    write_by_lengths(all, 63, 55, GILLACORN_SHORT, 56);

    asked = "gillacorn_bundle_read";
    for (size_t i = 0; i < sizeof files / sizeof *files; i++) {
        gillacorn_spans_answer given = gillacorn_bundle_read(untouchable(), files[i]);
        if (given.code != GILLACORN_TOO_LARGE)
            fails("another code");
        const gillacorn_span *spans = &given.spans.original_sections;
        for (int part = 0; part < 6; part++)
            if (spans[part].present || spans[part].start != 0 || spans[part].length != 0)
                fails("a span beside a refusal");
    }
}
