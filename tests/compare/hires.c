/* Included by compare.c: hires. A log of few keys, most of which have usable maps of 8 bytes, some longer ones, some that never become usable and some that come into conflict, with payloads of all of
   them before, between and after their messages; fed in chunks that are cut anywhere, under small limits too. In one of two hires keys are held already, and editions are set before the log and between
   its chunks. After each chunk the table and the log are compared with what yendrolf_feed makes of them, and at the end every line with plain_hire.c's. */

static struct {
    uint8_t front[GUARD];
    yendrolf_hire hire;
    uint8_t behind[GUARD];
} lent_hire;
static yendrolf_box hire_box, hire_before;
static struct plain_hire plain_hire;
static uint8_t hire_guard[GUARD];

static struct intended hire_scene[MOST_KEYS];
static unsigned hire_keys;

static uint64_t hires, hire_records, payloads_read, most_read, lines_told, lines_in_conflict, empty_lines, hire_states[4];
static uint64_t editions_set, lines_2004, kept_back;   /* kept back: lines of keys of which payloads were read, and that are not usable by their edition now */

/* An SPN for a map of 8 bytes that is to have many positions or few. */
static uint32_t short_spn(const struct intended *m, int many)
{
    uint32_t spn = next_spn(m, m->n);
    while (many && plain_width(spn) > 2)
        spn = any_spn();
    return spn;
}

/* A usable map of 8 bytes. */
static void intend_eight(struct intended *m)
{
    int many = one_in(5);
    struct spots spots = { one_in(3) ? below(4) : 0, 0, 0 };
    unsigned want = many ? 20 + below(12) : 1 + below(8);
    m->n = 0;
    for (unsigned tries = 0; m->n < want && tries < 400; tries++) {
        uint32_t spn = short_spn(m, many);
        struct spots after = spots;
        unsigned start = next_start(&after, plain_width(spn), !many && one_in(4) ? below(5) : 0);
        if (plain_width(spn) == 0 || has_spn(m, m->n, spn) || after.end > 64)
            continue;
        spots = after;
        m->n++;
        m->spn[m->n] = spn;
        m->start[m->n] = start;
    }
    if (m->n == 0) {
        m->n = 1;
        m->spn[1] = 1517;
        m->start[1] = 0;
    }
    m->proprietary = one_in(4);
    m->transport = 0;
    measure(m);
}

static void set_hire(void)
{
    static const uint8_t sources[] = { 0, 38, 253 };
    static const uint8_t destinations[] = { 0, 39, 255 };
    hire_keys = one_in(3) ? 1 + below(3) : 1 + below(MOST_KEYS);
    for (unsigned i = 0; i < hire_keys; i++) {
        struct intended *m = &hire_scene[i];
        m->source = PICK(sources);
        m->destination = PICK(destinations);
        m->k = (uint8_t)(1 + below(15));
        if (one_in(5))
            intend(m, 31, 249);
        else
            intend_eight(m);
    }
}

/* A payload of a key: numbers at the lines that part the states are frequent, and now and then the frame is none. */
static struct frame payload_of(const struct intended *m)
{
    struct frame f = { below(8) << 26 | (176u + m->k) << 16 | (uint32_t)m->destination << 8 | m->source, 8, { 0 } };
    for (unsigned i = 0; i < 8; i++)
        f.data[i] = (uint8_t)(one_in(3) ? edge(8) : any());
    if (one_in(40))
        f.length = (uint8_t)below(256);
    if (one_in(40))
        f.identifier ^= 1u << below(32);
    return f;
}

/* A record of the hire's log. */
static struct frame hired_frame(void)
{
    const struct intended *m = &hire_scene[below(hire_keys)];
    if (one_in(12))
        return any_frame();
    if (!one_in(4))
        return payload_of(m);
    struct frame f = frame_of(m, 1 + below(m->n), 0);
    if (one_in(60))   /* a contradiction, mostly */
        f.data[7] = (uint8_t)(1 + below(250));
    return f;
}

/* The log: mostly the maps are told first, each with its positions rising and payloads between them; then anything. */
static size_t write_hire(uint8_t *log, size_t most)
{
    size_t size = 0;
    if (!one_in(4))
        for (unsigned i = 0; i < hire_keys; i++)
            for (unsigned p = 1; p <= hire_scene[i].n && size + 26 <= most; p++) {
                size = put_record(log, size, frame_of(&hire_scene[i], p, 0));
                if (one_in(8))
                    size = put_record(log, size, payload_of(&hire_scene[i]));
            }
    for (unsigned left = below(one_in(3) ? 40 : 400); left > 0 && size + 13 <= most; left--)
        size = put_record(log, size, hired_frame());
    return size;
}

/* One chunk: the library's table and log are what yendrolf_feed makes of them, and nothing around the cells changed. */
static yendrolf_log feed_both(yendrolf_log log, uint32_t limit, const uint8_t *chunk, size_t size)
{
    memcpy(&hire_before, &hire_box, sizeof hire_box);
    yendrolf_log hired = yendrolf_feed_hire(&hire_box, &lent_hire.hire, limit, log, chunk, size), fed = yendrolf_feed(&hire_before, log, chunk, size);
    plain_hire_feed(&plain_hire, chunk, size);
    if (memcmp(&hire_box, &hire_before, sizeof hire_box) != 0)
        differ("the hire made another box of its log than the listing");
    if (hired.records != fed.records || hired.refused != fed.refused || hired.other != fed.other || hired.left != fed.left || memcmp(hired.carry, fed.carry, sizeof fed.carry) != 0)
        differ("the hire counts its log as the listing does not");
    if (hired.records != plain_hire.records || hired.refused != plain_hire.refused || hired.other != plain_hire.other || hired.left != plain_hire.left)
        differ("the counts of a hire's log");
    if (memcmp(lent_hire.front, hire_guard, GUARD) != 0 || memcmp(lent_hire.behind, hire_guard, GUARD) != 0)
        differ("a call wrote past the cells");
    return hired;
}

/* An edition of a key of the hire, held or not: the box changes as by yendrolf_set_edition alone, and the cells stay. */
static void set_hire_edition(const struct intended *m)
{
    static yendrolf_hire held;
    uint32_t edition = one_in(20) ? below(3000) : one_in(2) ? 2010 : 2004;
    snprintf(told_call, sizeof told_call, "a hire's edition %" PRIu32 " of %u %u %u", edition, m->source, m->destination, m->k);
    memcpy(&held, &lent_hire.hire, sizeof held);
    yendrolf_told a = yendrolf_set_edition(&hire_box, m->source, m->destination, m->k, edition);
    same(SET, a, plain_hire_set_edition(&plain_hire, m->source, m->destination, m->k, edition));
    if (memcmp(&held, &lent_hire.hire, sizeof held) != 0)
        differ("an edition changed the cells");
    editions_set += a.number == 0;
}

/* Some of the keys. */
static void set_editions(void)
{
    for (unsigned i = 0; i < hire_keys; i++)
        if (one_in(3))
            set_hire_edition(&hire_scene[i]);
}

/* What the box holds before the log: messages of some keys, the first of each or all. */
static void teach_before(void)
{
    for (unsigned i = 0; i < hire_keys; i++) {
        const struct intended *m = &hire_scene[i];
        unsigned last = one_in(3) ? 0 : one_in(2) ? 1 : m->n;
        for (unsigned p = 1; p <= last; p++) {
            struct frame f = frame_of(m, p, 0);
            same(LEARN, yendrolf_learn(&hire_box, f.identifier, f.length, f.data), plain_hire_learn(&plain_hire, f.identifier, f.length, f.data));
        }
    }
}

static int same_line(yendrolf_line a, struct plain_line b)
{
    return a.spn == b.spn && a.read == b.read && a.valid == b.valid && a.reserved == b.reserved && a.error == b.error && a.missing == b.missing && a.least == b.least
        && a.greatest == b.greatest && a.sum == b.sum;
}

static yendrolf_line line_of(uint32_t limit, uint8_t source, uint8_t destination, uint8_t k, unsigned position)
{
    static yendrolf_hire held;
    snprintf(told_call, sizeof told_call, "line of %u %u %u, position %u, limit %" PRIu32, source, destination, k, position, limit);
    memcpy(&held, &lent_hire.hire, sizeof held);
    yendrolf_line a = yendrolf_line_at(&hire_box, &lent_hire.hire, limit, source, destination, k, (uint8_t)position);
    struct plain_line b = plain_hire_line(&plain_hire, limit, source, destination, k, position);
    same(LINE, a.told, b.answer);
    if (!same_line(a, b))
        differ("the line");
    if (memcmp(&held, &lent_hire.hire, sizeof held) != 0)
        differ("asking for a line changed the cells");
    if (a.told.number == 0 && a.read != a.valid + a.reserved + a.error + a.missing)
        differ("the four counts do not add up to the payloads read");
    return a;
}

/* Whether payloads of a key were read. */
static int was_read(yendrolf_key key)
{
    for (unsigned i = 0; i < plain_hire.held; i++)
        if (plain_hire.keys[i].source == key.source && plain_hire.keys[i].destination == key.destination && plain_hire.keys[i].k == key.k)
            return 1;
    return 0;
}

/* The whole report: every key in order, each with the positions from 1 on. */
static void walk_lines(uint32_t limit)
{
    for (yendrolf_key key = yendrolf_first_key(&hire_box); key.held; key = yendrolf_next_key(&hire_box, key.source, key.destination, key.k)) {
        int conflict = yendrolf_judge(&hire_box, key.source, key.destination, key.k).judgement == YENDROLF_IN_CONFLICT;
        int old = plain_edition(&plain_hire.box, key.source, key.destination, key.k) == 2004;
        yendrolf_line line;
        for (unsigned p = 1; (line = line_of(limit, key.source, key.destination, key.k, p)).told.number == 0; p++) {
            lines_told++;
            lines_in_conflict += (unsigned)conflict;
            lines_2004 += (unsigned)old;
            empty_lines += line.read == 0;
            payloads_read += p == 1 ? line.read : 0;
            if (line.read > most_read)
                most_read = line.read;
            hire_states[0] += line.valid;
            hire_states[1] += line.reserved;
            hire_states[2] += line.error;
            hire_states[3] += line.missing;
        }
        kept_back += line.told.number == YENDROLF_NOT_USABLE && was_read(key);
    }
    for (unsigned i = 0; i < hire_keys; i++) {   /* and those that have none */
        const struct intended *m = &hire_scene[i];
        line_of(limit, m->source, m->destination, m->k, one_in(2) ? below(66) : below(m->n + 2));
        line_of(limit, m->source, m->destination, (uint8_t)(one_in(4) ? any() : m->k ^ 1u), below(3));
    }
}

static void hire(void)
{
    static uint8_t log[13 * 1300];
    uint32_t limit = one_in(2) ? YENDROLF_HIRE_LIMIT : one_in(3) ? below(3) : below(30);
    set_hire();
    size_t size = write_hire(log, sizeof log - 12), fed = 0;
    for (unsigned cut = one_in(2) ? below(13) : 0; cut > 0; cut--)
        log[size++] = (uint8_t)any();
    unsigned longest_chunk = one_in(3) ? 5 : one_in(2) ? 40 : 20000;
    snprintf(told_call, sizeof told_call, "a hire of %zu bytes and %u keys, limit %" PRIu32, size, hire_keys, limit);
    yendrolf_start(&hire_box);
    yendrolf_start_hire(&lent_hire.hire);
    plain_hire_start(&plain_hire);
    yendrolf_log state = yendrolf_start_log();
    int editions = one_in(2);
    if (editions) {
        teach_before();
        set_editions();
    }
    while (fed < size) {
        size_t chunk = below(longest_chunk);
        if (chunk > size - fed)
            chunk = size - fed;
        snprintf(told_call, sizeof told_call, "a hire of %zu bytes and %u keys, limit %" PRIu32 ", from byte %zu on", size, hire_keys, limit, fed);
        state = feed_both(state, limit, log + fed, chunk);
        fed += chunk;
        if (editions && one_in(longest_chunk < 100 ? 60 : 2))
            set_editions();
        if (one_in(60))
            walk_lines(limit);
    }
    walk_lines(limit);
    unchanged();
    hires++;
    hire_records += state.records;
}

static void print_hires(void)
{
    printf("hires %" PRIu64 ", their records %" PRIu64 ", payloads in their lines %" PRIu64 ", the most of a line %" PRIu64 "; lines %" PRIu64 ", of keys in conflict %" PRIu64 ", without payloads %" PRIu64
        "\nnumbers in lines: valid %" PRIu64 ", reserved %" PRIu64 ", error %" PRIu64 ", not available %" PRIu64 "\n", hires, hire_records, payloads_read, most_read, lines_told, lines_in_conflict,
        empty_lines, hire_states[0], hire_states[1], hire_states[2], hire_states[3]);
    printf("editions set in hires %" PRIu64 ", lines of keys of 2004 %" PRIu64 ", keys of which payloads were read and that their edition lets have no line %" PRIu64 "\n", editions_set, lines_2004, kept_back);
}
