/* The white rectangles of a page by leptonica, to be measured beside layout1.
 *
 *     leptonica_whites COUNT POPS < page.pbm
 *
 * asks boxaGetWhiteblocks for the greatest rectangle clear of the page's boxes, adds it to them, and asks again, COUNT
 * times or until it finds none, and prints each as x0 y0 x1 y1. The boxes are those of the connected components that are
 * more than 2 pixels wide or more than 2 high, in a shuffled order as in leptonica's own program: its choice of the box
 * at which a rectangle is cut goes by their order. POPS is how many rectangles one search may open; 0 stands for
 * leptonica's own 20,000, after which it stops and says nothing of it. */
#include <leptonica/allheaders.h>
#include <stdio.h>
#include <stdlib.h>

static BOXA *kept_boxes(PIX *page)
{
    BOXA *all = pixConnCompBB(page, 8);
    BOXA *kept = boxaSelectBySize(all, 3, 3, L_SELECT_IF_EITHER, L_SELECT_IF_GTE, NULL);
    BOXA *shuffled = boxaPermuteRandom(NULL, kept);
    boxaDestroy(&all);
    boxaDestroy(&kept);
    return shuffled;
}

int main(int argc, char **argv)
{
    if (argc != 3) {
        fprintf(stderr, "usage: leptonica_whites COUNT POPS < page.pbm\n");
        return 2;
    }
    PIX *page = pixReadStreamPnm(stdin);
    if (page == NULL)
        return 3;
    BOXA *taken = kept_boxes(page);
    BOX *whole = boxCreate(0, 0, pixGetWidth(page), pixGetHeight(page));
    for (int found = 0; found < atoi(argv[1]); found++) {
        BOXA *whites = boxaGetWhiteblocks(taken, whole, L_SORT_BY_AREA, 1, 0.0, 0, 0.0, atoi(argv[2]));
        if (whites == NULL || boxaGetCount(whites) == 0)
            break;
        BOX *white = boxaGetBox(whites, 0, L_COPY);
        printf("%d %d %d %d\n", white->x, white->y, white->x + white->w, white->y + white->h);
        boxaAddBox(taken, white, L_INSERT);
        boxaDestroy(&whites);
    }
    boxDestroy(&whole);
    boxaDestroy(&taken);
    pixDestroy(&page);
    return 0;
}
