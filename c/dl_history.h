/* Writes the history of a loader that was closed to a file, which `plans --history` draws. It is over the calls of dl_loader.h, and no part
 * of the library: a program that includes it has it. */
#ifndef DL_HISTORY_H
#define DL_HISTORY_H

#include "dl_loader.h"

#include <stdio.h>

/* A text of JSON. */
static inline void dl_write_text(FILE *to, const uint8_t *text, size_t len)
{
    fputc('"', to);
    for (size_t i = 0; i < len; i++) {
        if (text[i] < ' ') {
            fprintf(to, "\\u%04x", text[i]);
            continue;
        }
        if (text[i] == '"' || text[i] == '\\') {
            fputc('\\', to);
        }
        fputc(text[i], to);
    }
    fputc('"', to);
}

/* The keys of an event, with commas between them. */
static inline void dl_write_keys(FILE *to, dl_loader *loader, uint32_t at, size_t keys)
{
    dl_key_texts key;

    for (size_t i = 0; i < keys; i++) {
        dl_loader_event_key(loader, at, i, &key);
        fputs(i > 0 ? ",[" : "[", to);
        dl_write_text(to, key.table, key.table_len);
        fputc(',', to);
        dl_write_text(to, key.id, key.id_len);
        fputc(']', to);
    }
}

/* An event as a call of a script. */
static inline void dl_write_call(FILE *to, dl_loader *loader, uint32_t at, dl_event event)
{
    static const char *const names[] = {"load", "loadMany", "prime", "clear", "clearAll", "dispatch", "settle", "fail"};
    int is_many = event.call == DL_CALL_LOAD_MANY;

    fprintf(to, "{\"%s\":%s", names[event.call], is_many ? "[" : "");
    dl_write_keys(to, loader, at, event.keys);
    if (event.call == DL_CALL_SETTLE || event.call == DL_CALL_FAIL) {
        fprintf(to, "%lu", (unsigned long)event.batch);
    } else if (event.call == DL_CALL_CLEAR_ALL || event.call == DL_CALL_DISPATCH) {
        fputs("true", to);
    }
    fputs(is_many ? "]}" : "}", to);
}

/* Its caller, and what it was answered: for each key of a load or a prime whether a cell begins with it, the cell and the batch; and of
 * a dispatch the batches. */
static inline void dl_write_answer(FILE *to, dl_loader *loader, uint32_t at, dl_event event)
{
    dl_key_texts key;

    fprintf(to, "[%lu", (unsigned long)event.caller);
    for (size_t i = 0; event.call <= DL_CALL_PRIME && i < event.keys; i++) {
        dl_loaded answer = dl_loader_event_key(loader, at, i, &key);
        fprintf(to, ",%d,%lu,%lu", answer.code == DL_FRESH, (unsigned long)answer.cell, (unsigned long)answer.batch);
    }
    for (size_t i = 0; event.call == DL_CALL_DISPATCH && i < event.batches; i++) {
        fprintf(to, ",%lu", (unsigned long)(event.batch + i));
    }
    fputc(']', to);
}

/* What a loader was opened with, by which its script begins. */
static inline void dl_write_opened(FILE *to, const dl_opened *opened)
{
    const uint8_t *name = opened->names;

    fprintf(to, "{\"script\":%d,\"maxBatchSize\":%lu,\"maxCells\":%lu,\"maxCalls\":%lu,", opened->is_by_table ? 2 : 1,
            (unsigned long)opened->opening.max_batch, (unsigned long)opened->opening.max_cells, (unsigned long)opened->opening.max_calls);
    fputs(opened->is_by_table ? "\"tableLimits\":[" : "", to);
    for (size_t i = 0; i < opened->tables_len; name += opened->tables[i].name_len, i++) {
        fputs(i > 0 ? ",[" : "[", to);
        dl_write_text(to, name, opened->tables[i].name_len);
        fprintf(to, ",%lu]", (unsigned long)opened->tables[i].limit);
    }
    fputs(opened->is_by_table ? "]," : "", to);
}

/* The calls, and on a line of their own the answers. */
static inline void dl_write_events(FILE *to, dl_loader *loader)
{
    dl_event event;

    fputs("\"calls\":[", to);
    for (uint32_t at = 0; (event = dl_loader_event(loader, at)).code == DL_DONE; at++) {
        fputs(at > 0 ? "," : "", to);
        dl_write_call(to, loader, at, event);
    }
    fputs("]}\n[", to);
    for (uint32_t at = 0; (event = dl_loader_event(loader, at)).code == DL_DONE; at++) {
        fputs(at > 0 ? "," : "", to);
        dl_write_answer(to, loader, at, event);
    }
    fputs("]\n", to);
}

/* Writes the history of a loader that was closed. If a write fails, ferror says so.
 * DL_DONE; or, with nothing written, DL_OPEN: the loader isn't closed. */
static inline uint32_t dl_write_history(FILE *to, dl_loader *loader)
{
    uint32_t code = dl_loader_event(loader, 0).code;

    if (code != DL_DONE && code != DL_NO_EVENT) {
        return code;
    }
    dl_write_opened(to, dl_loader_opened(loader));
    dl_write_events(to, loader);
    return DL_DONE;
}

#endif
