#ifndef PLANS_H
#define PLANS_H

/* Plan files that are compared too. */
void compare_files(char **names, int count);

#endif
