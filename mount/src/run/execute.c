#include "run/run.h"
#include <errno.h>
#include <limits.h>
#include <stdbool.h>
#include <stdio.h>
#include <stdlib.h>
#include <string.h>
#include <sys/stat.h>
#include <unistd.h>

/* Whether a folder of PATH has a file of this name. An empty word is the working directory. */
/* A file that may not be executed counts too: then the errno is EACCES. */
static bool is_on_path(const char *name)
{
	char file[PATH_MAX], usual[PATH_MAX];
	struct stat st;
	const char *at = getenv("PATH");
	if (!at && confstr(_CS_PATH, usual, sizeof usual)) /* what execvp then searches */
		at = usual;
	for (; at; at = (at = strchr(at, ':')) ? at + 1 : NULL) {
		int size = (int)strcspn(at, ":"), n = snprintf(file, sizeof file, "%.*s%s%s", size, at, size ? "/" : "", name);
		if (n > 0 && n < PATH_MAX && stat(file, &st) == 0 && !S_ISDIR(st.st_mode))
			return true;
	}
	return false;
}

/* execvp fails with EACCES too if one of the folders may not be searched, and with ENOTDIR if the last is a file. A shell then says that
   it found nothing. */
int execute(const char *name, char **words)
{
	/* It returns only if it fails. */
	execvp(name, words);
	if ((errno == EACCES || errno == ENOTDIR) && !strchr(name, '/'))
		errno = is_on_path(name) ? EACCES : ENOENT;
	return errno;
}
