/* What the table of verbs says: as help, as a man page and as completion for bash. */
#include "tools.h"
#include "verbs.h"

#include <string.h>

enum { WIDE = 80, COLUMN = 34 };

/* A text of words in lines of WIDE columns; the first one has so many letters already. */
static void wrapped(FILE *out, int used, int indent, const char *text) {
    while (*text) {
        size_t n = strcspn(text, " ");
        if (used > indent && used + 1 + (int)n > WIDE) {
            fputc('\n', out);
            used = 0;
        } else if (used > indent) {
            fputc(' ', out);
            used++;
        }
        for (; used < indent; used++)
            fputc(' ', out);
        fwrite(text, 1, n, out);
        used += (int)n;
        text += n + strspn(text + n, " ");
    }
    fputc('\n', out);
}

static size_t option_words(char *words, size_t room, const option *o) {
    const char *other = o->other == NULL ? "" : o->other, *comma = o->other == NULL ? "" : ", ";
    return (size_t)snprintf(words, room, "%s%s%s%s%s", o->name, comma, other, o->value == NULL ? "" : " ", o->value == NULL ? "" : o->value);
}

static void print_options(FILE *out, const option *options) {
    char words[100];
    for (size_t i = 0; i < OPTIONS && options[i].name != NULL; i++) {
        size_t n = option_words(words, sizeof words, &options[i]);
        fprintf(out, "  %s", words);
        if (n > COLUMN - 4)
            fputc('\n', out);
        wrapped(out, n > COLUMN - 4 ? 0 : (int)n + 2, COLUMN, options[i].help);
    }
}

/* Whether an option has to be there: then the names have it. */
static bool needed(const verb *v, const option *o) {
    return strstr(v->names, o->name) != NULL;
}

void print_usage(FILE *out, const verb *v) {
    fprintf(out, "usage: icotable %s", v->name);
    for (size_t i = 0; i < OPTIONS && v->options[i].name != NULL; i++)
        if (!needed(v, &v->options[i]))
            fprintf(out, " [%s%s%s]", v->options[i].name, v->options[i].value == NULL ? "" : " ", v->options[i].value == NULL ? "" : v->options[i].value);
    fprintf(out, " %s\n", v->names);
}

void print_help(FILE *out) {
    fputs("usage: icotable VERB [OPTION].. NAME..\n\n", out);
    for (size_t i = 0; i < verbs_count; i++) {
        int used = fprintf(out, "  %s", verbs[i].name);
        bool own_line = used + 1 + (int)strlen(verbs[i].names) > COLUMN - 2;
        if (own_line)
            wrapped(out, used, 4, verbs[i].names);
        else
            used += fprintf(out, " %s", verbs[i].names);
        wrapped(out, own_line ? 0 : used, COLUMN, verbs[i].line);
    }
    print_options(out, main_options);
    for (size_t i = 0; i < notes_count; i++) {
        fputc('\n', out);
        wrapped(out, 0, 0, notes[i]);
    }
}

void print_verb_help(const verb *v) {
    print_usage(stdout, v);
    putchar('\n');
    wrapped(stdout, 0, 0, v->help);
    putchar('\n');
    print_options(stdout, v->options);
    print_options(stdout, common_options);
    putchar('\n');
    wrapped(stdout, 0, 0, notes[0]);
}

/* A text for troff, whose dashes, backslashes and quotes are its own, and whose lines begin with nothing that it takes for a
 * request. */
static void troff(const char *text) {
    if (text[0] == '.' || text[0] == '\'')
        fputs("\\&", stdout);
    for (; *text; text++)
        switch (*text) {
        case '-': fputs("\\-", stdout); break;
        case '\\': fputs("\\e", stdout); break;
        case '"': fputs("\\(dq", stdout); break;
        case '\'': fputs("\\(aq", stdout); break;
        default: putchar(*text);
        }
}

static void paragraph(const char *request, const char *text) {
    fputs(request, stdout);
    troff(text);
    putchar('\n');
}

static void man_options(const option *options) {
    char words[100];
    for (size_t i = 0; i < OPTIONS && options[i].name != NULL; i++) {
        option_words(words, sizeof words, &options[i]);
        paragraph(".TP\n.B ", words);
        paragraph("", options[i].help);
    }
}

static void man_verb(const verb *v) {
    fputs(".SS \"", stdout);
    troff(v->name);
    putchar(' ');
    troff(v->names);
    fputs("\"\n", stdout);
    paragraph("", v->line);
    paragraph(".PP\n", v->help);
    man_options(v->options);
}

void print_man(void) {
    puts(".TH ICOTABLE 1 \"\" \"icotable " ICOTABLE_VERSION "\" \"User Commands\"\n"
         ".SH NAME\nicotable \\- look at tables of pair energies and at journals of builds\n"
         ".SH SYNOPSIS\n.B icotable\n.I VERB\n.RI [ OPTION ]..\n.IR NAME ..");
    puts(".SH VERBS");
    for (size_t i = 0; i < verbs_count; i++)
        man_verb(&verbs[i]);
    puts(".SH OPTIONS\n.SS \"of every verb\"");
    man_options(common_options);
    puts(".SS \"instead of a verb\"");
    man_options(main_options);
    puts(".SH NOTES");
    for (size_t i = 0; i < notes_count; i++)
        paragraph(".PP\n", notes[i]);
}

static void option_names(const option *options) {
    for (size_t i = 0; i < OPTIONS && options[i].name != NULL; i++)
        printf(" %s%s%s", options[i].name, options[i].other == NULL ? "" : " ", options[i].other == NULL ? "" : options[i].other);
}

/* A line for each option whose value is one of a few words. */
static void option_values(const option *options) {
    for (size_t i = 0; i < OPTIONS && options[i].name != NULL; i++)
        if (options[i].value != NULL && strchr(options[i].value, '|') != NULL) {
            printf("    %s) COMPREPLY=($(compgen -W '", options[i].name);
            for (const char *c = options[i].value; *c; c++)
                putchar(*c == '|' ? ' ' : *c);
            puts("' -- \"$word\")); return ;;");
        }
}

void print_completion(void) {
    fputs("# Completion of icotable " ICOTABLE_VERSION " for bash, made by icotable --completion; in zsh behind:\n"
          "#   autoload -U +X bashcompinit && bashcompinit\n"
          "# File names are the shell's own to complete.\n"
          "_icotable() {\n"
          "    local word=${COMP_WORDS[COMP_CWORD]} before=${COMP_WORDS[COMP_CWORD - 1]} options\n"
          "    COMPREPLY=()\n"
          "    if [ \"$COMP_CWORD\" -eq 1 ]; then\n        COMPREPLY=($(compgen -W '", stdout);
    for (size_t i = 0; i < verbs_count; i++)
        printf("%s%s", i > 0 ? " " : "", verbs[i].name);
    option_names(main_options);
    fputs("' -- \"$word\"))\n        return\n    fi\n"
          "    if [ \"$before\" = = ]; then before=${COMP_WORDS[COMP_CWORD - 2]}; fi\n"
          "    if [ \"$word\" = = ]; then word=; fi\n"
          "    case $before in\n", stdout);
    option_values(common_options);
    for (size_t i = 0; i < verbs_count; i++)
        option_values(verbs[i].options);
    puts("    esac\n    case ${COMP_WORDS[1]} in");
    for (size_t i = 0; i < verbs_count; i++) {
        printf("    %s) options='", verbs[i].name);
        option_names(verbs[i].options);
        puts("' ;;");
    }
    fputs("    *) return ;;\n    esac\n    if [[ $word == -* ]]; then\n        COMPREPLY=($(compgen -W \"$options", stdout);
    option_names(common_options);
    puts("\" -- \"$word\"))\n    fi\n}\ncomplete -o default -F _icotable icotable");
}
