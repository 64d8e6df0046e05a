/* Does what judge.py does, by claims.c. */
#define _GNU_SOURCE
#include "claims.h"

#include <lakhdzeva.h>
#include <stdio.h>
#include <stdlib.h>
#include <string.h>

int main(int count, char **words) {
    char *line = NULL, *fields[6];
    size_t size = 0;
    if (count != 2) return 2;
    while (getline(&line, &size, stdin) > 0) {
        char *rest = line;
        line[strcspn(line, "\n")] = 0;
        for (int i = 0; i < 6; i++) fields[i] = strsep(&rest, "\t");
        if (!fields[5]) return 3;
        struct expected expected = {fields[2], fields[3], fields[4], atof(fields[1])};
        if (!strcmp(fields[2], "-")) expected.issuer = NULL;
        if (!strcmp(fields[3], "-")) expected.audience = NULL;
        if (!strcmp(fields[4], "-")) expected.type = NULL;
        size_t length = strlen(fields[5]), payload_length = 0;
        /* Behind the payload there is nothing that claims_of may read. */
        char *payload = malloc(length + 1);
        json_t *claims = NULL;
        if (!payload) return 4;
        enum lakhdzeva_status status = lakhdzeva_verify(words[1], strlen(words[1]), fields[5], length, 0, payload, length, &payload_length);
        if (status) printf("%u %s\n", status, lakhdzeva_name(status));
        else {
            char *exact = malloc(payload_length + !payload_length);
            if (!exact) return 4;
            memcpy(exact, payload, payload_length);
            const char *wrong = claims_of(fields[5], length, exact, payload_length, &expected, atof(fields[0]), &claims);
            if (!wrong != !!claims) return 5;
            puts(wrong ? wrong : "yes");
            free(exact);
        }
        json_decref(claims);
        free(payload);
    }
    free(line);
    return 0;
}
