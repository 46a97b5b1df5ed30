/* Where a server's complaints go, and how both servers word them. */
#ifndef AHCI_HOST_SAY_H
#define AHCI_HOST_SAY_H

/* How a server prints a line, and how its user writes an option: NAME=VALUE, or --NAME VALUE. */
struct voice {
    void (*put)(const char *line);
    void (*note)(const char *line); /* of what is no fault */
    const char *before;  /* "" or "--" */
    const char *between; /* "=" or " " */
};

/* Sets the voice, before any other call here and before other threads begin. */
void say_begin(const struct voice *voice);

/* Prints a line. */
__attribute__((format(printf, 1, 2))) void say(const char *format, ...);

/* Prints a line about an option: "image=FILE: TEXT" or "--image FILE: TEXT". */
__attribute__((format(printf, 3, 4))) void say_of(const char *name, const char *value, const char *format, ...);

/* The same of what is no fault. */
__attribute__((format(printf, 1, 2))) void note(const char *format, ...);
__attribute__((format(printf, 3, 4))) void note_of(const char *name, const char *value, const char *format, ...);

/* Prints that an option has a wrong value: `depth: expected TEXT, got "33"`. */
__attribute__((format(printf, 3, 4))) void say_expected(const char *name, const char *value, const char *format, ...);

#endif
