/* Makes hostile SEG-Y files and runs the program on each: it loads the file, answers queries and saves it.
   usage: hostile_files PROGRAM SEED NUMBER FILE..
   Each of the NUMBER variants is one of the FILEs, cut, with a tail, or with bytes changed where the frame is steered, as the
   numbers drawn from SEED say; --fixed, --samples, --format, --texts, --tail, --floats, --opaque-samples and --order are drawn too. Whether it is refused, with which text, and what `info` says of it,
   the bytes of no trace under --tail too, are worked out here a second time, from the manual's words. A file that is refused gives that text alone and saves nothing; of one that is accepted no query
   is refused, and it is saved byte for byte; or the line `declare` is, with what the manual says of it: done, where a load without the readings that it writes gives the same parts; or `drop tail`,
   behind which the bytes of no trace are not saved.
   Prints the variants that went otherwise, and how often each refusal came. */
#include "run_program.h"
#include <stdint.h>

#define MOST_BYTES 200000
#define MOST_FILES 20

typedef unsigned char byte;

/* ---- numbers drawn from the seed (xorshift) */
static uint64_t state;

static uint64_t draw(uint64_t below) {
    state ^= state << 13;
    state ^= state >> 7;
    state ^= state << 17;
    return (state >> 11) % below;
}

/* ---- what the manual says of a file: places count from 1 there, and from 0 here */
struct volume {
    const byte *bytes;
    size_t length, most;
    int little, fixed_reading, floats_reading, opaque_reading, tail_reading;
    const char *order; /* that is asked for, or NULL */
    int is_opaque; /* its samples have no values */
    int64_t samples_reading, format_reading, texts_reading; /* that are asked for, or -1 */
};

/* The parts of a file that is accepted, with a number for where the traces begin, and the bytes of no trace behind them. */
struct parts {
    int little, major, fixed;
    uint64_t traces, starts, samples, format, blocks, extensions, trailer, tail;
};

static uint64_t field(const struct volume *file, size_t place, int size) {
    uint64_t value = 0;
    for (int at = 0; at < size; at++)
        value = value << 8 | file->bytes[file->little ? place + size - 1 - at : place + at];
    return value;
}

static int64_t signed_field(const struct volume *file, size_t place, int size) {
    uint64_t value = field(file, place, size), sign = (uint64_t)1 << (8 * size - 1);
    return (int64_t)(value ^ sign) - (int64_t)sign;
}

/* The character of a byte of text, in small letters, among those of the end of the text; `?` for each other. */
static char character(byte b, int ebcdic) {
    static const char letters[] = "segndtx:()", codes[] = "\xa2\x85\x87\x95\x84\xa3\xa7\x7a\x4d\x5d", capitals[] = "\xe2\xc5\xc7\xd5\xc4\xe3\xe7";
    const char *at;
    if (!ebcdic) {
        if (b >= 'A' && b <= 'Z') b += 'a' - 'A';
        return b && strchr(letters, b) ? (char)b : '?';
    }
    if (b && (at = strchr(codes, (char)b))) return letters[at - codes];
    if (b && (at = strchr(capitals, (char)b))) return letters[at - capitals];
    return '?';
}

/* Whether a block of 3200 bytes holds ((SEG: EndText)), blanks and ends of lines aside. */
static int ends_text(const byte *block) {
    char shown[3201];
    int length = 0, ebcdic_blanks = 0, ascii_blanks = 0, ebcdic, at;
    for (at = 0; at < 3200; at++) ebcdic_blanks += block[at] == 0x40, ascii_blanks += block[at] == 0x20;
    ebcdic = ebcdic_blanks > ascii_blanks || (ebcdic_blanks == ascii_blanks && block[0] == 0xc3);
    for (at = 0; at < 3200; at++) {
        byte b = block[at];
        if (b == (ebcdic ? 0x40 : 0x20) || b == 0x0d || b == (ebcdic ? 0x25 : 0x0a)) continue;
        shown[length++] = character(b, ebcdic);
    }
    shown[length] = 0;
    return strstr(shown, "((seg:endtext))") != NULL;
}

/* The number of extended textual headers, or -1 where the count is refused. */
static int64_t blocks_of(const struct volume *file, int64_t count) {
    int64_t whole = (int64_t)(file->length - 3600) / 3200;
    if (count >= 0) return count <= whole ? count : -1;
    if (count < -1) return -1;
    for (int64_t block = 0; block < whole; block++)
        if (ends_text(file->bytes + 3600 + 3200 * block)) return block + 1;
    return -1;
}

static int width_of(uint64_t format) {
    static const int widths[] = {0, 4, 4, 2, 4, 4, 8, 3, 1, 8, 4, 2, 8, 0, 0, 3, 1};
    return format < 17 ? widths[format] : 0;
}

/* Whether bytes 3297-3300 tell an order that is not the one asked for; else `little` says which it is. */
static int orders_differ(struct volume *file) {
    const byte *told = file->bytes + 3296;
    int is_little = !memcmp(told, "\4\3\2\1", 4), is_told = is_little || !memcmp(told, "\1\2\3\4", 4);
    int asks_little = file->order && !strcmp(file->order, "little");
    file->little = is_told ? is_little : asks_little;
    return file->order && is_told && is_little != asks_little;
}

struct frame {
    int fixed, width;
    int64_t extensions;
    uint64_t samples;
};

/* The traces between two places: their number, or the refusal of the first that is torn or names too many extensions. Under --tail what is torn is no trace. */
static void judge_traces(const struct volume *file, struct frame frame, uint64_t at, uint64_t end, char *text, struct parts *parts) {
    unsigned long trace = 0;
    parts->starts = parts->tail = 0;
    while (at < end) {
        uint64_t left = end - at, extensions = frame.extensions, samples = 0, named;
        int is_torn = left < 240 || (extensions && left < 480);
        if (!is_torn && extensions && (named = field(file, at + 240 + 156, 2))) {
            if (named > extensions) { sprintf(text, "L13 extension count trace %lu", trace + 1); return; }
            extensions = named;
        }
        if (!is_torn) {
            if (!frame.fixed && frame.extensions) samples = field(file, at + 240 + 136, 4);
            if (!frame.fixed && !samples) samples = field(file, at + 114, 2);
            if (!samples || frame.fixed) samples = frame.samples;
            samples = 240 * (1 + extensions) + frame.width * samples;
            is_torn = left < samples;
        }
        if (is_torn && file->tail_reading) { parts->tail = left; break; }
        if (is_torn) { sprintf(text, "L14 truncated trace %lu", trace + 1); return; }
        trace++;
        at += samples;
        parts->starts = parts->starts * 1000003 + at;
    }
    parts->traces = trace;
    sprintf(text, "traces %lu", trace);
}

/* The refusal of the file without `load refused`, or the number of its traces. */
static void judge(struct volume *file, char *text, struct parts *parts) {
    const byte *order = file->bytes + 3296;
    uint64_t format, first;
    int64_t blocks, count, trailer = 0;
    struct frame frame;
    int major, second, is_float;
    file->little = file->is_opaque = 0;
    if (file->length > file->most) { strcpy(text, "L02 too large"); return; }
    if (file->length < 3600) { sprintf(text, "L03 short %zu", file->length); return; }
    if (!memcmp(order, "\2\1\4\3", 4)) { strcpy(text, "L04 pair swapped"); return; }
    if (orders_differ(file)) { strcpy(text, "L17 other byte order"); return; }
    major = file->bytes[3500];
    second = major == 2;
    if (major > 2 || (second && file->bytes[3501])) { sprintf(text, "L05 revision %d.%d", major, file->bytes[3501]); return; }
    format = file->format_reading < 0 ? field(file, 3224, 2) : (uint64_t)file->format_reading;
    is_float = format == 1 || format == 5 || format == 6;
    file->is_opaque = format == 4 || (is_float && !file->floats_reading);
    if (file->is_opaque && !file->opaque_reading) {
        if (format == 4) strcpy(text, "L07 gain format");
        else sprintf(text, "L06 float format %d", (int)format);
        return;
    }
    frame.width = width_of(format);
    if (!frame.width) { sprintf(text, "L08 unknown format %d", (int)format); return; }
    count = file->texts_reading >= 0 ? file->texts_reading : major ? signed_field(file, 3504, 2) : 0;
    blocks = blocks_of(file, count);
    if (blocks < 0) { sprintf(text, "L09 text count %d", (int)count); return; }
    frame.extensions = second ? signed_field(file, 3506, 4) : 0;
    if (frame.extensions < 0 || frame.extensions > 255) { sprintf(text, "L10 extensions %d", (int)frame.extensions); return; }
    if (second) trailer = signed_field(file, 3528, 4);
    if (trailer < 0 || 3200 * (blocks + trailer) > (int64_t)file->length - 3600) { sprintf(text, "L11 trailer %d", (int)trailer); return; }
    first = second ? field(file, 3520, 8) : 0;
    if (first && first != 3600 + 3200 * (uint64_t)blocks) { sprintf(text, "L12 first trace %llu", (unsigned long long)first); return; }
    frame.samples = second ? field(file, 3268, 4) : 0;
    if (!frame.samples) frame.samples = field(file, 3220, 2);
    if (file->samples_reading >= 0) frame.samples = file->samples_reading;
    frame.fixed = file->fixed_reading || file->samples_reading >= 0 || (major && field(file, 3502, 2));
    parts->little = file->little, parts->major = major, parts->fixed = frame.fixed, parts->samples = frame.samples, parts->format = format;
    parts->blocks = blocks, parts->extensions = frame.extensions, parts->trailer = trailer;
    judge_traces(file, frame, 3600 + 3200 * blocks, file->length - 3200 * trailer, text, parts);
}

/* ---- variants */
static struct text bases[MOST_FILES];
static int base_count;

static void write_number(byte *bytes, int size, uint64_t value, int little) {
    for (int at = 0; at < size; at++) bytes[little ? at : size - 1 - at] = value >> (8 * at);
}

/* A number that is of interest somewhere: small, at an end of a range, or any. */
static uint64_t any_number(void) {
    static const uint64_t numbers[] = {0, 1, 2, 3, 4, 5, 7, 8, 10, 16, 255, 256, 3600, 6800, 10000, 32767, 32768, 65535, 65536, 0x7fffffff, 0x80000000, 0xffffffff, -1, -2, 1ull << 63};
    return draw(5) ? numbers[draw(sizeof numbers / sizeof *numbers)] : draw((uint64_t)1 << (1 + draw(52)));
}

/* A place where the frame is steered, and its size: of the binary header, or of the headers of one of the first traces. */
static size_t steered(size_t length, int *size) {
    static const struct { int place, size; } fields[] = {{3220, 2}, {3224, 2}, {3268, 4}, {3296, 4}, {3500, 1}, {3501, 1}, {3502, 2}, {3504, 2}, {3506, 4}, {3512, 8}, {3520, 8}, {3528, 4}};
    static const struct { int place, size; } of_trace[] = {{114, 2}, {240 + 136, 4}, {240 + 156, 2}};
    static const int starts[] = {3600, 3844, 3846, 4084, 4088, 4090, 6800, 10000, 10244};
    size_t place;
    int which;
    if (draw(3)) {
        which = draw(sizeof fields / sizeof *fields);
        *size = fields[which].size;
        return fields[which].place;
    }
    which = draw(3);
    *size = of_trace[which].size;
    place = starts[draw(sizeof starts / sizeof *starts)] + of_trace[which].place;
    return place + *size <= length ? place : 3220;
}

/* One of the counts, with the last number that may be accepted or the first that may not. */
static void change_count(byte *bytes, size_t length, int little) {
    int64_t blocks = (int64_t)(length - 3600) / 3200;
    switch (draw(4)) {
        case 0: write_number(bytes + 3504, 2, draw(2) ? -draw(3) : blocks + draw(2), little); break;
        case 1: write_number(bytes + 3506, 4, draw(3) ? 254 + draw(3) : (uint64_t)-1, little); break;
        case 2: write_number(bytes + 3528, 4, draw(4) ? blocks - 1 + draw(3) : (uint64_t)-1, little); break;
        case 3: write_number(bytes + 3520, 8, 3600 + 3200 * (blocks ? draw(blocks + 1) : 0) + (draw(3) == 0), little); break;
    }
}

static void change(byte *bytes, size_t length) {
    int size, little = draw(4) == 0;
    size_t place;
    if (length < 3600) return;
    switch (draw(11)) {
        case 0: /* any byte of the binary header */
            bytes[3200 + draw(400)] = draw(256);
            break;
        case 1: /* any byte of the file */
            bytes[draw(length)] = draw(256);
            break;
        case 2: /* the byte order */
            memcpy(bytes + 3296, draw(3) ? draw(3) ? draw(2) ? "\4\3\2\1" : "\1\2\3\4" : "\0\0\0\0" : "\2\1\4\3", 4);
            break;
        case 3: /* the revision */
            bytes[3500] = draw(4);
            bytes[3501] = draw(4) ? 0 : draw(256);
            break;
        case 4: /* the text ends by itself: here, in another code, or not at all */
            if (length < 6800) break;
            write_number(bytes + 3504, 2, -1, 0);
            if (draw(3) == 0) memset(bytes + 3600, draw(2) ? 0x40 : 0x20, 3200);
            place = 3600 + 3200 * draw((length - 3600) / 3200) + draw(3200 - 20);
            memcpy(bytes + place, draw(3) ? draw(2) ? "((SEG: EndText))" : "((seg\r\n:endtext ))" : "\x4d\x4d\xe2\xc5\xc7\x7a\x40\xc5\xd5\xc4\xe3\xc5\xe7\xe3\x5d\x5d", 16);
            break;
        case 5: /* the sample format */
            write_number(bytes + 3224, 2, draw(18), draw(2));
            break;
        case 6: /* a count at an end of its range */
            change_count(bytes, length, little);
            break;
        default:
            place = steered(length, &size);
            write_number(bytes + place, size, any_number(), little);
    }
}

/* A length at which a part of some file ends, or a byte less or more; at most the length of the file. */
static size_t near_part(size_t most) {
    static const int parts[] = {3600, 3840, 3844, 3846, 4080, 4084, 4088, 4320, 6800, 10000, 10240, 10244};
    size_t length = parts[draw(sizeof parts / sizeof *parts)] + draw(3) - 1;
    return length < most ? length : most;
}

/* Makes a variant; its length. */
static size_t vary(byte *bytes) {
    const struct text *base = &bases[draw(base_count)];
    size_t length = base->length, tail;
    memcpy(bytes, base->bytes, length);
    if (draw(3) == 0) length = draw(3) ? 3600 + draw(length - 3599) : draw(length);
    else if (draw(6) == 0) length = near_part(length);
    if (draw(4) == 0) {
        tail = draw(2) ? 240 + draw(10) : draw(4000);
        for (size_t at = 0; at < tail; at++) bytes[length + at] = draw(3) ? 0 : draw(256);
        length += tail;
    }
    for (int changes = draw(4); changes > 0; changes--) change(bytes, length);
    return length;
}

/* ---- the readings, and the line `declare` */

/* Draws the readings of a file. */
static void draw_readings(struct volume *file) {
    static const int formats[] = {1, 2, 3, 3, 3, 4, 5, 7, 8, 13, 300};
    if (draw(5) == 0) file->samples_reading = draw(3) ? (int64_t)draw(8) : (int64_t)(any_number() & 0xffffffff);
    if (draw(5) == 0) file->format_reading = formats[draw(sizeof formats / sizeof *formats)];
    if (draw(5) == 0) file->texts_reading = draw(4) ? (int64_t)draw(4) : (int64_t)draw(32768);
}

/* The words of the readings behind others; the numbers stand in `room`. */
static char **reading_words(const struct volume *file, char **word, char room[3][20]) {
    static char *names[] = {"--samples", "--format", "--texts"};
    int64_t numbers[] = {file->samples_reading, file->format_reading, file->texts_reading};
    for (int at = 0; at < 3; at++) {
        if (numbers[at] < 0) continue;
        sprintf(room[at], "%lld", (long long)numbers[at]);
        *word++ = names[at], *word++ = room[at];
    }
    return word;
}

/* Takes the bytes of no trace out of a file of so many bytes; how many are left. */
static size_t drop_tail(byte *bytes, size_t length, const struct parts *parts) {
    size_t behind = 3200 * parts->trailer;
    memmove(bytes + length - behind - parts->tail, bytes + length - behind, behind);
    return length - parts->tail;
}

/* Writes what the manual says that `declare` writes; whether a load without the readings, of what is left without the bytes of no trace, then gives the same parts. */
static int declare(const struct volume *file, const struct parts *parts, byte *bytes) {
    static byte left[MOST_BYTES + 5000];
    struct volume plain = *file;
    struct parts again;
    char text[80];
    if (file->samples_reading >= 0) {
        int is_wide = file->samples_reading > 65535;
        write_number(bytes + 3220, 2, is_wide ? 0 : file->samples_reading, parts->little);
        if (parts->major == 2) write_number(bytes + 3268, 4, is_wide ? file->samples_reading : 0, parts->little);
    }
    if (file->format_reading >= 0) write_number(bytes + 3224, 2, file->format_reading, parts->little);
    if ((file->samples_reading >= 0 || file->fixed_reading) && parts->major) write_number(bytes + 3502, 2, 1, parts->little);
    if (file->texts_reading >= 0 && parts->major) write_number(bytes + 3504, 2, file->texts_reading, parts->little);
    memcpy(left, bytes, file->length);
    plain.bytes = left;
    plain.length = drop_tail(left, file->length, parts);
    plain.samples_reading = plain.format_reading = plain.texts_reading = -1;
    plain.fixed_reading = plain.tail_reading = 0;
    judge(&plain, text, &again);
    return text[0] == 't' && again.traces == parts->traces && again.starts == parts->starts && again.samples == parts->samples && again.format == parts->format
        && again.blocks == parts->blocks && again.extensions == parts->extensions && again.trailer == parts->trailer;
}

/* ---- the runs */
static struct { char code[12]; long met; } met[24];

static void count_as(const char *text) {
    int at;
    int length = text[0] == 'L' ? 3 : 11;
    for (at = 0; met[at].met && strncmp(met[at].code, text, length); at++);
    strncpy(met[at].code, text, length);
    met[at].met++;
}

/* What `info` answers, with so many bytes and so many of no trace. */
static void info_of(const struct volume *file, const struct parts *parts, size_t length, uint64_t tail, char *line) {
    line += sprintf(line, "info order %s revision %d.%d format %d samples %llu fixed %s extensions %d blocks %d trailer %d traces %llu bytes %zu", parts->little ? "little" : "big", parts->major,
        file->bytes[3501], (int)parts->format, (unsigned long long)parts->samples, parts->fixed ? "yes" : "no", (int)parts->extensions, (int)parts->blocks, (int)parts->trailer,
        (unsigned long long)parts->traces, length);
    if (file->tail_reading) line += sprintf(line, " tail %llu", (unsigned long long)tail);
    strcpy(line, "\n");
}

/* The queries: those of traces where there are traces, from the first to the last of them, and those of values where samples have them. */
static void ask(const char *text, int is_opaque) {
    static const char always[] = "count\ninfo\nfaults\nproblems\nrange x\ngrid\nhistogram\nstanzas\nline 0 1\nfields\nlines 0\n";
    char queries[1000];
    unsigned long traces = 0;
    strcpy(queries, always);
    if (!is_opaque) strcat(queries, "totals\nslice 0\nslice 1\n");
    if (sscanf(text, "traces %lu", &traces) == 1 && traces)
        sprintf(queries + strlen(queries), "header 1\nheader %lu\nextremes 1 %lu\ntable 1 %lu inline @1:8 samples\nfind 1 %lu crossline -5 30\n", traces, traces, traces, traces);
    write_path("queries", queries, strlen(queries));
}

/* What standard error has, the refusal aside: of a file whose format is read under an option alone the line that names it. */
static const char *told_beside(const char *text) {
    if (!strncmp(text, "L06", 3)) return "segywb: with --floats the file is read, its samples with their values; with --opaque-samples as bytes without a value\n";
    if (strncmp(text, "L07", 3)) return "";
    return "segywb: with --opaque-samples the file is read all the same, its samples as bytes without a value\n";
}

/* Runs one variant; whether it went as it has to. */
static int run(char *program, long number, byte *bytes) {
    extern char **environ;
    const char *told;
    static byte wanted_bytes[MOST_BYTES + 5000];
    struct volume file = {bytes, vary(bytes), 4294967296, 0, draw(4) == 0, draw(3) == 0, draw(3) == 0, draw(3) == 0, NULL, 0, -1, -1, -1};
    struct parts parts;
    size_t length;
    char text[80], wanted[400], limit[30], numbers[3][20];
    char *words[22] = {program, "variant.sgy", "--script", "queries", "--out", "saved.sgy", "--max-bytes", limit}, **word = words + 8;
    struct ended ended;
    struct text saved;
    int well, is_accepted, way, is_refused = 0;
    enum { DECLARES = 1, DROPS };
    draw_readings(&file);
    if (draw(20) == 0 && file.length > 2) file.most = file.length - 2 + draw(4);
    sprintf(limit, "%zu", file.most);
    if (draw(5) == 0) file.order = draw(2) ? "big" : "little";
    if (file.fixed_reading) *word++ = "--fixed";
    if (file.floats_reading) *word++ = "--floats";
    if (file.opaque_reading) *word++ = "--opaque-samples";
    if (file.tail_reading) *word++ = "--tail";
    if (file.order) *word++ = "--order", *word++ = (char *)file.order;
    word = reading_words(&file, word, numbers);
    judge(&file, text, &parts);
    is_accepted = text[0] == 't';
    memcpy(wanted_bytes, bytes, file.length);
    length = file.length;
    way = is_accepted ? (int)draw(5) : -1;
    ask(text, file.is_opaque);
    sprintf(wanted, is_accepted ? "%s\n" : "load refused %s\n", text);
    if (way == DECLARES || way == DROPS + 1) {
        way = DECLARES;
        is_refused = !declare(&file, &parts, wanted_bytes);
        if (is_refused) memcpy(wanted_bytes, bytes, file.length);
        write_path("queries", "declare\n", 8);
        strcpy(wanted, is_refused ? "refused E06 frame\n" : "ok\n");
        count_as(is_refused ? "undeclared" : "declared");
    } else if (way == DROPS) {
        length = drop_tail(wanted_bytes, length, &parts);
        write_path("queries", "drop tail\ninfo\ndrop tail\n", 25);
        strcpy(wanted, "ok\n");
        info_of(&file, &parts, length, 0, wanted + 3);
        strcat(wanted, "ok\n");
        if (length != file.length) count_as("dropped");
    } else if (is_accepted) info_of(&file, &parts, length, parts.tail, strchr(wanted, 0));
    if (is_accepted && parts.tail) count_as("tailed");
    write_path("variant.sgy", bytes, file.length);
    unlink("saved.sgy");
    ended = run_program(words, environ);
    saved = read_path("saved.sgy");
    told = told_beside(text);
    well = ended.status == (is_accepted ? is_refused : 3) && ended.errors.length == strlen(told) && !memcmp(ended.errors.bytes, told, strlen(told))
        && ended.answers.length >= strlen(wanted) && !memcmp(ended.answers.bytes, wanted, strlen(wanted))
        && (is_accepted || ended.answers.length == strlen(wanted))
        && (is_accepted ? saved.bytes && saved.length == length && !memcmp(saved.bytes, wanted_bytes, length) : !saved.bytes);
    if (!well) {
        printf("FAILED variant %ld of %zu bytes, limit %s%s%s%s%s%s%s,", number, file.length, limit, file.fixed_reading ? ", fixed" : "", file.floats_reading ? ", floats" : "", file.opaque_reading ? ", opaque" : "",
            file.tail_reading ? ", tail" : "", file.order ? ", " : "", file.order ? file.order : "");
        printf(" samples %lld format %lld texts %lld%s: ", (long long)file.samples_reading, (long long)file.format_reading, (long long)file.texts_reading, way == DECLARES ? ", declared" : way == DROPS ? ", dropped" : "");
        say_end(&ended);
        printf(saved.bytes ? ", saved %zu bytes" : ", nothing saved", saved.length);
        for (char *at = wanted; *at; at++) if (*at == '\n') *at = ';';
        printf("; wanted %s\n", wanted);
    }
    count_as(is_accepted ? "accepted" : text);
    free(saved.bytes);
    forget(&ended);
    return well;
}

int main(int count, char **words) {
    static byte bytes[MOST_BYTES + 5000];
    long number, failed = 0;
    int at;
    if (count < 5 || count - 4 > MOST_FILES) give_up("usage: hostile_files PROGRAM SEED NUMBER FILE..");
    state = strtoull(words[2], NULL, 10) * 2 + 1;
    for (at = 4; at < count; at++) {
        bases[base_count] = read_path(words[at]);
        if (!bases[base_count].bytes || bases[base_count++].length > MOST_BYTES) give_up(words[at]);
    }
    for (number = 1; number <= atol(words[3]) && !is_late; number++) failed += !run(words[1], number, bytes);
    for (at = 0; met[at].met; at++) printf("%s %ld\n", met[at].code, met[at].met);
    return failed != 0;
}
