/* A yardstick for `measure wire`: the same texts are read and written by hand. Reading checks each length,
 * boolean, enumeration and padding; names and content of calls are lent, and names and handles of a listing
 * are copied into memory of their own. Writing reserves a value's size once, and then only copies. */
#include <inttypes.h>
#include <stdbool.h>
#include <stdio.h>
#include <stdlib.h>
#include <string.h>

struct reader { const uint8_t *at, *end; };
struct part { const uint8_t *bytes; uint32_t len; };
struct buffer { uint8_t *bytes; size_t len, room; };

struct moment { uint32_t seconds, nanos; };
struct fattr {
    uint32_t kind, mode, nlink, uid, gid;
    uint64_t size, used;
    uint32_t major, minor;
    uint64_t fsid, fileid;
    struct moment atime, mtime, ctime;
};
struct post_op_attr { bool there; struct fattr attributes; };
struct place { struct part directory, name; };
struct write_args { struct part file, data; uint64_t offset; uint32_t count, stable; };
struct entry {
    uint64_t fileid, cookie;
    struct part name, object;
    struct post_op_attr attributes;
    bool has_object;
};
struct listing {
    struct post_op_attr attributes;
    uint8_t verifier[8];
    struct entry *entries;
    size_t count, room;
    bool eof;
};

/* Reading. Each answers whether the item stood there. */

static bool word(struct reader *r, uint32_t *v)
{
    if (r->end - r->at < 4)
        return false;
    memcpy(v, r->at, 4);
    *v = __builtin_bswap32(*v);
    r->at += 4;
    return true;
}

static bool hyper(struct reader *r, uint64_t *v)
{
    if (r->end - r->at < 8)
        return false;
    memcpy(v, r->at, 8);
    *v = __builtin_bswap64(*v);
    r->at += 8;
    return true;
}

static bool truth(struct reader *r, bool *v)
{
    uint32_t n;
    if (!word(r, &n) || n > 1)
        return false;
    *v = n == 1;
    return true;
}

static bool opaque(struct reader *r, uint32_t max, struct part *p)
{
    uint32_t n;
    if (!word(r, &n) || n > max)
        return false;
    size_t padded = ((size_t)n + 3) & ~(size_t)3;
    if ((size_t)(r->end - r->at) < padded)
        return false;
    p->bytes = r->at;
    p->len = n;
    r->at += padded;
    return true;
}

static bool moment(struct reader *r, struct moment *m)
{
    return word(r, &m->seconds) && word(r, &m->nanos);
}

static bool post_op_attr(struct reader *r, struct post_op_attr *a)
{
    struct fattr *f = &a->attributes;
    if (!truth(r, &a->there))
        return false;
    if (!a->there)
        return true;
    return word(r, &f->kind) && f->kind >= 1 && f->kind <= 7 && word(r, &f->mode) && word(r, &f->nlink)
        && word(r, &f->uid) && word(r, &f->gid) && hyper(r, &f->size) && hyper(r, &f->used)
        && word(r, &f->major) && word(r, &f->minor) && hyper(r, &f->fsid) && hyper(r, &f->fileid)
        && moment(r, &f->atime) && moment(r, &f->mtime) && moment(r, &f->ctime);
}

static __attribute__((noinline)) bool read_get_attr(struct reader r, struct part *handle)
{
    return opaque(&r, 64, handle) && r.at == r.end;
}

static __attribute__((noinline)) bool read_lookup(struct reader r, struct place *p)
{
    return opaque(&r, 64, &p->directory) && opaque(&r, UINT32_MAX, &p->name) && r.at == r.end;
}

static __attribute__((noinline)) bool read_write(struct reader r, struct write_args *w)
{
    return opaque(&r, 64, &w->file) && hyper(&r, &w->offset) && word(&r, &w->count) && word(&r, &w->stable)
        && w->stable <= 2 && opaque(&r, UINT32_MAX, &w->data) && r.at == r.end;
}

static bool own(struct part *p)
{
    uint8_t *copy = malloc(p->len ? p->len : 1);
    if (!copy)
        return false;
    memcpy(copy, p->bytes, p->len);
    p->bytes = copy;
    return true;
}

static bool read_entry(struct reader *r, struct entry *e)
{
    return hyper(r, &e->fileid) && opaque(r, UINT32_MAX, &e->name) && own(&e->name) && hyper(r, &e->cookie)
        && post_op_attr(r, &e->attributes) && truth(r, &e->has_object)
        && (!e->has_object || (opaque(r, 64, &e->object) && own(&e->object)));
}

static bool grow(struct listing *l)
{
    size_t room = l->room ? 2 * l->room : 4;
    struct entry *entries = realloc(l->entries, room * sizeof *entries);
    if (!entries)
        return false;
    l->entries = entries;
    l->room = room;
    return true;
}

/* A fault ends the program, so that nothing is given back there. */
static __attribute__((noinline)) bool read_listing(struct reader r, struct listing *l)
{
    uint32_t status;
    bool more;
    l->entries = NULL;
    l->count = l->room = 0;
    if (!word(&r, &status) || status != 0 || !post_op_attr(&r, &l->attributes) || r.end - r.at < 8)
        return false;
    memcpy(l->verifier, r.at, 8);
    r.at += 8;
    while (truth(&r, &more)) {
        if (!more)
            return truth(&r, &l->eof) && r.at == r.end;
        if (l->count == l->room && !grow(l))
            return false;
        if (!read_entry(&r, &l->entries[l->count]))
            return false;
        l->count++;
    }
    return false;
}

static void drop_listing(struct listing *l)
{
    for (size_t i = 0; i < l->count; i++) {
        free((void *)l->entries[i].name.bytes);
        if (l->entries[i].has_object)
            free((void *)l->entries[i].object.bytes);
    }
    free(l->entries);
}

/* Writing, into room that was reserved. */

static bool reserve(struct buffer *out, size_t more)
{
    if (out->room - out->len >= more)
        return true;
    uint8_t *bytes = realloc(out->bytes, out->len + more);
    if (!bytes)
        return false;
    out->bytes = bytes;
    out->room = out->len + more;
    return true;
}

static void put_word(struct buffer *out, uint32_t v)
{
    v = __builtin_bswap32(v);
    memcpy(out->bytes + out->len, &v, 4);
    out->len += 4;
}

static void put_hyper(struct buffer *out, uint64_t v)
{
    v = __builtin_bswap64(v);
    memcpy(out->bytes + out->len, &v, 8);
    out->len += 8;
}

static size_t opaque_size(const struct part *p)
{
    return 4 + (((size_t)p->len + 3) & ~(size_t)3);
}

static void put_opaque(struct buffer *out, const struct part *p)
{
    put_word(out, p->len);
    memcpy(out->bytes + out->len, p->bytes, p->len);
    out->len += p->len;
    while (out->len & 3)
        out->bytes[out->len++] = 0;
}

static void put_moment(struct buffer *out, const struct moment *m)
{
    put_word(out, m->seconds);
    put_word(out, m->nanos);
}

static void put_post_op_attr(struct buffer *out, const struct post_op_attr *a)
{
    const struct fattr *f = &a->attributes;
    put_word(out, a->there);
    if (!a->there)
        return;
    put_word(out, f->kind);
    put_word(out, f->mode);
    put_word(out, f->nlink);
    put_word(out, f->uid);
    put_word(out, f->gid);
    put_hyper(out, f->size);
    put_hyper(out, f->used);
    put_word(out, f->major);
    put_word(out, f->minor);
    put_hyper(out, f->fsid);
    put_hyper(out, f->fileid);
    put_moment(out, &f->atime);
    put_moment(out, &f->mtime);
    put_moment(out, &f->ctime);
}

static __attribute__((noinline)) bool write_get_attr(struct buffer *out, const struct part *handle)
{
    if (!reserve(out, opaque_size(handle)))
        return false;
    put_opaque(out, handle);
    return true;
}

static __attribute__((noinline)) bool write_lookup(struct buffer *out, const struct place *p)
{
    if (!reserve(out, opaque_size(&p->directory) + opaque_size(&p->name)))
        return false;
    put_opaque(out, &p->directory);
    put_opaque(out, &p->name);
    return true;
}

static __attribute__((noinline)) bool write_write(struct buffer *out, const struct write_args *w)
{
    if (!reserve(out, 16 + opaque_size(&w->file) + opaque_size(&w->data)))
        return false;
    put_opaque(out, &w->file);
    put_hyper(out, w->offset);
    put_word(out, w->count);
    put_word(out, w->stable);
    put_opaque(out, &w->data);
    return true;
}

static size_t entry_size(const struct entry *e)
{
    return 28 + opaque_size(&e->name) + (e->attributes.there ? 84 : 0)
        + (e->has_object ? opaque_size(&e->object) : 0);
}

static __attribute__((noinline)) bool write_listing(struct buffer *out, const struct listing *l)
{
    size_t size = 4 + 4 + (l->attributes.there ? 84 : 0) + 8 + 4 + 4;
    for (size_t i = 0; i < l->count; i++)
        size += entry_size(&l->entries[i]);
    if (!reserve(out, size))
        return false;
    put_word(out, 0);
    put_post_op_attr(out, &l->attributes);
    memcpy(out->bytes + out->len, l->verifier, 8);
    out->len += 8;
    for (size_t i = 0; i < l->count; i++) {
        const struct entry *e = &l->entries[i];
        put_word(out, 1);
        put_hyper(out, e->fileid);
        put_opaque(out, &e->name);
        put_hyper(out, e->cookie);
        put_post_op_attr(out, &e->attributes);
        put_word(out, e->has_object);
        if (e->has_object)
            put_opaque(out, &e->object);
    }
    put_word(out, 0);
    put_word(out, l->eof);
    return true;
}

/* What is read and written. */

static struct reader samples[4];

static void make_samples(void)
{
    static uint8_t handle_bytes[24], name_bytes[32], content_bytes[4096];
    memset(handle_bytes, 'h', sizeof handle_bytes);
    memset(name_bytes, 'n', sizeof name_bytes);
    memset(content_bytes, 'c', sizeof content_bytes);
    struct part handle = {handle_bytes, 24};
    struct moment time = {1000, 5};
    struct post_op_attr attributes = {
        true, {1, 0644, 1, 1000, 1000, 4096, 4096, 0, 0, 1, 2, time, time, time}};
    struct place place = {handle, {name_bytes, 9}};
    struct write_args args = {handle, {content_bytes, 4096}, 8192, 4096, 2};
    static struct entry entries[32];
    struct listing listing = {attributes, "", entries, 32, 32, true};
    memcpy(listing.verifier, "verifier", 8);
    for (uint32_t n = 0; n < 32; n++)
        entries[n] = (struct entry){n, n + 1, {name_bytes, n + 1}, handle, attributes, true};
    struct buffer outs[4] = {{0}};
    if (!write_get_attr(&outs[0], &handle) || !write_lookup(&outs[1], &place)
        || !write_write(&outs[2], &args) || !write_listing(&outs[3], &listing))
        exit(1);
    for (int i = 0; i < 4; i++)
        samples[i] = (struct reader){outs[i].bytes, outs[i].bytes + outs[i].len};
}

struct values {
    struct part handle;
    struct place place;
    struct write_args args;
    struct listing listing;
};

static bool read_one(struct values *v, uint64_t n)
{
    switch (n % 4) {
    case 0:
        return read_get_attr(samples[0], &v->handle);
    case 1:
        return read_lookup(samples[1], &v->place);
    case 2:
        return read_write(samples[2], &v->args);
    default:
        return read_listing(samples[3], &v->listing);
    }
}

static bool write_one(struct buffer *out, const struct values *v, uint64_t n)
{
    out->len = 0;
    switch (n % 4) {
    case 0:
        return write_get_attr(out, &v->handle);
    case 1:
        return write_lookup(out, &v->place);
    case 2:
        return write_write(out, &v->args);
    default:
        return write_listing(out, &v->listing);
    }
}

/* What is read of each sample is written as it stood. */
static bool samples_return(struct buffer *out, struct values *v)
{
    for (uint64_t n = 0; n < 4; n++) {
        size_t len = (size_t)(samples[n].end - samples[n].at);
        if (!read_one(v, n) || !write_one(out, v, n))
            return false;
        if (out->len != len || memcmp(out->bytes, samples[n].at, len) != 0)
            return false;
    }
    return true;
}

int main(int argc, char **argv)
{
    uint64_t count = argc == 2 ? strtoull(argv[1], NULL, 10) : 0, bytes = 0;
    struct buffer out = {malloc(65536), 0, 65536};
    struct values values, kept;
    if (!out.bytes)
        return 1;
    make_samples();
    if (!samples_return(&out, &kept))
        return 1;
    for (uint64_t n = 0; n < count; n++) {
        if (!read_one(&values, n) || !write_one(&out, &values, n))
            return 1;
        if (n % 4 == 3)
            drop_listing(&values.listing);
        bytes += out.len;
    }
    printf("read and written %" PRIu64 "\nbytes read and written %" PRIu64 "\n", count, bytes);
    fflush(stdout);
    bytes = 0;
    for (uint64_t n = 0; n < count; n++) {
        if (!write_one(&out, &kept, n))
            return 1;
        bytes += out.len;
    }
    printf("written %" PRIu64 "\nbytes written %" PRIu64 "\n", count, bytes);
    drop_listing(&kept.listing);
    free(out.bytes);
    return 0;
}
