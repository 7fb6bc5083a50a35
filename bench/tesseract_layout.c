/* The layout of a page by tesseract without reading its text, to be measured beside layout1.
 *
 * tesseract_layout < page.pbm prints how many text lines the layout analysis of `tesseract --psm 3` found. */
#include <leptonica/allheaders.h>
#include <stdio.h>
#include <tesseract/capi.h>

int main(void)
{
    PIX *page = pixReadStreamPnm(stdin);
    if (page == NULL)
        return 3;
    TessBaseAPI *api = TessBaseAPICreate();
    TessBaseAPIInitForAnalysePage(api);
    TessBaseAPISetPageSegMode(api, PSM_AUTO);
    TessBaseAPISetImage2(api, page);
    TessPageIterator *lines = TessBaseAPIAnalyseLayout(api);
    int count = lines == NULL ? 0 : 1;
    while (lines != NULL && TessPageIteratorNext(lines, RIL_TEXTLINE))
        count++;
    printf("%d\n", count);
    if (lines != NULL)
        TessPageIteratorDelete(lines);
    TessBaseAPIDelete(api);
    pixDestroy(&page);
    return 0;
}
