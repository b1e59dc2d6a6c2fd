/* What the columns of a layer hold that GDAL opens, by the schema of its Arrow stream: gdal_stream FILE [LAYER]
 *
 * Prints a line of JSON for each column, and behind them what else is found (include/geoarrow.h). GDAL says of its
 * geometries that they are WKB, and from 3.8 on, where it is asked, in which CRS. Built as
 *
 *   cc examples/gdal_stream.c $(gdal-config --cflags) $(gdal-config --libs) $(pkg-config --cflags --libs geoarrow_c)
 */
#include <cpl_string.h>
#include <gdal.h>
#include <ogr_api.h>
#include <ogr_recordbatch.h>
#ifndef ARROW_C_DATA_INTERFACE
#define ARROW_C_DATA_INTERFACE /* which GDAL's header declares, and before 3.8 does not say so */
#endif
#include "geoarrow.h"
#include <stdio.h>
#include <stdlib.h>

/* Prints the report of a schema, or why it is refused. Whether there is a report. */
static int print_report(const struct ArrowSchema *schema) {
    uint8_t *text = NULL, status = GEOARROW_SHORT;
    size_t room = 1 << 16, length = 0;
    while (status == GEOARROW_SHORT) {
        free(text);
        text = malloc(room);
        if (!text) return 0;
        status = geoarrow_read_schema(0, schema, text, room, &length);
        room = length;
    }
    if (status == GEOARROW_DONE || status == GEOARROW_REFUSED) fwrite(text, 1, length, stdout);
    else fprintf(stderr, "%s\n", geoarrow_status_text(status));
    free(text);
    return status == GEOARROW_DONE;
}

/* Prints the report of the schema of a layer. */
static int print_layer(OGRLayerH layer) {
    struct ArrowArrayStream stream;
    struct ArrowSchema schema;
    int is_printed = 0;
    char **options = CSLSetNameValue(NULL, "GEOMETRY_ENCODING", "WKB");
    options = CSLSetNameValue(options, "GEOMETRY_METADATA_ENCODING", "GEOARROW");
    if (OGR_L_GetArrowStream(layer, &stream, options)) {
        if (!stream.get_schema(&stream, &schema)) {
            is_printed = print_report(&schema);
            schema.release(&schema); /* it stays the caller's */
        }
        stream.release(&stream);
    }
    CSLDestroy(options);
    return is_printed;
}

int main(int count, char **words) {
    if (count < 2 || count > 3) {
        fprintf(stderr, "usage: gdal_stream FILE [LAYER]\n");
        return 2;
    }
    GDALAllRegister();
    GDALDatasetH file = GDALOpenEx(words[1], GDAL_OF_VECTOR | GDAL_OF_VERBOSE_ERROR, NULL, NULL, NULL);
    if (!file) return 2;
    OGRLayerH layer = count == 3 ? GDALDatasetGetLayerByName(file, words[2]) : GDALDatasetGetLayer(file, 0);
    int is_printed = layer && print_layer(layer);
    GDALClose(file);
    return !is_printed;
}
