/* Judges requests by libmodsecurity on one thread: what bench/compare.py sets the agent beside.
 *
 *     modsecurity REQUESTS RULES ..
 *
 * REQUESTS holds requests one after the other: the number of fields as four bytes, the lowest first, and each field
 * after its length in four such bytes: method, address, body, and then names and values of headers in turn. Printed
 * are the CPU seconds of reading the rule files, those of the requests, and how many of them were interrupted. */
#include <modsecurity/modsecurity.h>
#include <modsecurity/rules_set.h>
#include <modsecurity/transaction.h>
#include <stdint.h>
#include <stdio.h>
#include <stdlib.h>
#include <string.h>
#include <time.h>

enum { FIRST_FIELDS = 3, MOST_FIELDS = 64 };

struct field {
    const char *text;
    uint32_t size;
};

static void quiet(void *data, const void *message) { (void)data, (void)message; }

static double now(void) {
    struct timespec time;
    clock_gettime(CLOCK_PROCESS_CPUTIME_ID, &time);
    return time.tv_sec + time.tv_nsec / 1e9;
}

static uint32_t number(const char **at) {
    const unsigned char *bytes = (const unsigned char *)*at;
    *at += 4;
    return bytes[0] | bytes[1] << 8 | bytes[2] << 16 | (uint32_t)bytes[3] << 24;
}

static int is_interrupted(Transaction *one) {
    ModSecurityIntervention answer = {200, 0, NULL, NULL, 0};
    int is = msc_intervention(one, &answer) && answer.disruptive;
    free(answer.url);
    free(answer.log);
    return is;
}

static int request(Transaction *one, const struct field *fields, uint32_t count) {
    char *method = strndup(fields[0].text, fields[0].size), *address = strndup(fields[1].text, fields[1].size);
    msc_process_connection(one, "192.0.2.1", 40000, "198.51.100.7", 443);
    msc_process_uri(one, address, method, "1.1");
    free(method);
    free(address);
    for (uint32_t place = FIRST_FIELDS; place + 1 < count; place += 2)
        msc_add_n_request_header(one, (const unsigned char *)fields[place].text, fields[place].size,
                                 (const unsigned char *)fields[place + 1].text, fields[place + 1].size);
    msc_process_request_headers(one);
    if (is_interrupted(one)) return 1;
    msc_append_request_body(one, (const unsigned char *)fields[2].text, fields[2].size);
    msc_process_request_body(one);
    return is_interrupted(one);
}

static int response(Transaction *one) {
    msc_add_response_header(one, (const unsigned char *)"Content-Type", (const unsigned char *)"text/html");
    msc_process_response_headers(one, 200, "HTTP 1.1");
    if (is_interrupted(one)) return 1;
    msc_process_response_body(one);
    return is_interrupted(one);
}

int main(int count, char **words) {
    FILE *file = count > 2 ? fopen(words[1], "rb") : NULL;
    if (!file) return 2;
    fseek(file, 0, SEEK_END);
    long size = ftell(file);
    rewind(file);
    char *bytes = malloc(size + 1);
    if (!bytes || fread(bytes, 1, size, file) != (size_t)size) return 2;
    fclose(file);

    double start = now();
    ModSecurity *engine = msc_init();
    msc_set_log_cb(engine, quiet);
    RulesSet *rules = msc_create_rules_set();
    for (int place = 2; place < count; place++) {
        const char *fault = NULL;
        if (msc_rules_add_file(rules, words[place], &fault) < 0) {
            fprintf(stderr, "%s: %s\n", words[place], fault ? fault : "refused");
            return 3;
        }
    }
    double loaded = now();

    int interrupted = 0;
    for (const char *at = bytes; at < bytes + size;) {
        struct field fields[MOST_FIELDS];
        uint32_t number_of_fields = number(&at);
        if (number_of_fields < FIRST_FIELDS || number_of_fields > MOST_FIELDS) return 2;
        for (uint32_t place = 0; place < number_of_fields; place++) {
            fields[place].size = number(&at);
            fields[place].text = at;
            at += fields[place].size;
        }
        Transaction *one = msc_new_transaction(engine, rules, NULL);
        interrupted += request(one, fields, number_of_fields) || response(one);
        msc_process_logging(one);
        msc_transaction_cleanup(one);
    }
    printf("%.6f %.6f %d\n", loaded - start, now() - loaded, interrupted);
    return 0;
}
