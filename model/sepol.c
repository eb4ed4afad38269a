/* Answers access queries from a binary policy by libsepol, SELinux's own library, for sepol.py.

   usage: sepol POLICY <QUERIES

   A query is a line `SOURCE TARGET CLASS`. The reply to one is a line of three lists of permissions, as the reply to AV has them
   behind its OK: allowed, audited when allowed, audited when denied. A query about what the policy does not have is answered `none`. */
#include <sepol/policydb/services.h>
#include <stdio.h>
#include <stdlib.h>
#include <string.h>

/* libsepol has it, and no header says so. */
extern int sepol_set_policydb_from_file(FILE *file);

static int in_order(const void *first, const void *second)
{
    return strcmp(*(char *const *)first, *(char *const *)second);
}

/* Prints the names of the permissions of a mask in byte order, or - for none. Bits without a permission have an empty name. */
static void print_names(sepol_security_class_t class, unsigned mask)
{
    char *names[32];
    int count = 0;
    for (unsigned bit = 0; bit < 32; bit++) {
        const char *name = mask >> bit & 1 ? sepol_av_perm_to_string(class, 1u << bit) : NULL;
        if (name && name[*name == ' ']) {
            names[count++] = strdup(name + (*name == ' '));
        }
    }
    qsort(names, count, sizeof *names, in_order);
    for (int at = 0; at < count; at++) {
        printf("%s%s", at ? "," : "", names[at]);
        free(names[at]);
    }
    printf("%s", count ? "" : "-");
}

int main(int count, char **words)
{
    char line[8192], source[4096], target[4096], class_name[2048];
    FILE *file = count == 2 ? fopen(words[1], "rb") : NULL;
    if (!file || sepol_set_policydb_from_file(file)) {
        fputs("sepol: the policy cannot be read\n", stderr);
        return 1;
    }
    while (fgets(line, sizeof line, stdin)) {
        sepol_security_id_t from, onto;
        sepol_security_class_t class;
        struct sepol_av_decision decision;
        if (sscanf(line, "%4095s %4095s %2047s", source, target, class_name) != 3
            || sepol_context_to_sid(source, strlen(source) + 1, &from) || sepol_context_to_sid(target, strlen(target) + 1, &onto)
            || sepol_string_to_security_class(class_name, &class) || sepol_compute_av(from, onto, class, 0, &decision)) {
            puts("none");
            continue;
        }
        print_names(class, decision.allowed);
        putchar(' ');
        print_names(class, decision.auditallow);
        putchar(' ');
        print_names(class, decision.auditdeny);
        putchar('\n');
    }
    return 0;
}
