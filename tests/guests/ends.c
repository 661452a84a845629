/* The last line counts where it has no end, too; and fgets leaves what doesn't fit for the next call. */
#include <stdio.h>
#include <string.h>

int main(void)
{
    char text[6];
    while (fgets(text, sizeof text, stdin))
        printf("%d %s%s", (int)strlen(text), text, text[strlen(text) - 1] == '\n' ? "" : "|\n");
    printf("%d\n", feof(stdin) != 0);
    return 0;
}
