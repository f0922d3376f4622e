/* GDAL's own reader of design files, where its shared library is installed (Debian: gdal-bin): all elements of a file in
 * memory read one after another, and its texts counted. It is loaded at run time, so the bench builds without it. */
#include <dlfcn.h>
#include <stddef.h>
#include <stdint.h>

/* the first numbers of an element as that reader hands it out */
struct element {
    int offset, size, number, structure, level, type;
};

static struct {
    void *(*memory)(const char *name, uint8_t *bytes, unsigned long long length, int owned);
    int (*forget)(const char *name);
    void *(*open)(const char *name, int writable);
    struct element *(*next)(void *file);
    void (*drop)(void *file, struct element *element);
    void (*close)(void *file);
    int (*shut)(void *memory);
} gdal;

/* Whether the library is there, with the functions that are called. */
int gdal_found(void)
{
    static const char *const names[] = {"libgdal.so.32", "libgdal.so"};
    void *library = NULL;
    for (size_t k = 0; library == NULL && k < 2; k++)
        library = dlopen(names[k], RTLD_NOW);
    if (library == NULL)
        return 0;
    /* its warnings are not printed */
    void (*push)(void *) = NULL;
    *(void **)&push = dlsym(library, "CPLPushErrorHandler");
    void *quiet = dlsym(library, "CPLQuietErrorHandler");
    if (push == NULL || quiet == NULL)
        return 0;
    push(quiet);
    *(void **)&gdal.memory = dlsym(library, "VSIFileFromMemBuffer");
    *(void **)&gdal.forget = dlsym(library, "VSIUnlink");
    *(void **)&gdal.open = dlsym(library, "DGNOpen");
    *(void **)&gdal.next = dlsym(library, "DGNReadElement");
    *(void **)&gdal.drop = dlsym(library, "DGNFreeElement");
    *(void **)&gdal.close = dlsym(library, "DGNClose");
    *(void **)&gdal.shut = dlsym(library, "VSIFCloseL");
    return gdal.memory && gdal.forget && gdal.open && gdal.next && gdal.drop && gdal.close && gdal.shut;
}

/* The number of texts of a file, 0 where it cannot be opened. */
size_t gdal_texts(uint8_t *file, size_t len)
{
    static const char name[] = "/vsimem/bench.dgn";
    size_t texts = 0;
    void *memory = gdal.memory(name, file, len, 0);
    if (memory == NULL)
        return 0;
    void *opened = gdal.open(name, 0);
    if (opened != NULL) {
        struct element *element;
        while ((element = gdal.next(opened)) != NULL) {
            texts += element->type == 17;
            gdal.drop(opened, element);
        }
        gdal.close(opened);
    }
    gdal.shut(memory);
    gdal.forget(name);
    return texts;
}
