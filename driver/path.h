/* Paths of files that are to be replaced. What is returned is for the caller to free. */
#ifndef PATH_H
#define PATH_H

/* The file that a name means, links followed, also where the file is not there yet; NULL with errno. */
char *path_target(const char *name);

/* A path with an ending; NULL with errno. */
char *path_with(const char *path, const char *ending);

/* The folder that a path is in, with its slash; NULL with errno. */
char *path_folder(const char *path);

/* Whether a name means standard input or output. */
int is_standard(const char *name);

/* 1 if both names are there and mean one file, or would: in the same folder, by the same name. */
int same_file(const char *one, const char *other);

#endif
