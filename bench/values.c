#include "values.h"

enum { MOST_KEYS = 27 };

/* ecCodes' keys in the order in which skogmund_read gives the values; NULL where it has no key of its own: the section's number and
   the real year. */
static const char *const keys[SECTIONS][MOST_KEYS] = {
    {"section1Length", NULL, "centre", "subCentre", "tablesVersion", "localTablesVersion", "significanceOfReferenceTime", "year", "month",
     "day", "hour", "minute", "second", "productionStatusOfProcessedData", "typeOfProcessedData", NULL},
    {"section3Length", NULL, "sourceOfGridDefinition", "numberOfDataPoints", "numberOfOctectsForNumberOfPoints",
     "interpretationOfNumberOfPoints", "gridDefinitionTemplateNumber", "shapeOfTheEarth", "scaleFactorOfRadiusOfSphericalEarth",
     "scaledValueOfRadiusOfSphericalEarth", "scaleFactorOfEarthMajorAxis", "scaledValueOfEarthMajorAxis", "scaleFactorOfEarthMinorAxis",
     "scaledValueOfEarthMinorAxis", "Ni", "Nj", "basicAngleOfTheInitialProductionDomain", "subdivisionsOfBasicAngle",
     "latitudeOfFirstGridPoint", "longitudeOfFirstGridPoint", "resolutionAndComponentFlags", "latitudeOfLastGridPoint",
     "longitudeOfLastGridPoint", "iDirectionIncrement", "jDirectionIncrement", "scanningMode"},
    {"section4Length", NULL, "NV", "productDefinitionTemplateNumber", "parameterCategory", "parameterNumber", "typeOfGeneratingProcess",
     "backgroundProcess", "generatingProcessIdentifier", "hoursAfterDataCutoff", "minutesAfterDataCutoff", "indicatorOfUnitOfTimeRange",
     "forecastTime", "typeOfFirstFixedSurface", "scaleFactorOfFirstFixedSurface", "scaledValueOfFirstFixedSurface",
     "typeOfSecondFixedSurface", "scaleFactorOfSecondFixedSurface", "scaledValueOfSecondFixedSurface", "yearOfEndOfOverallTimeInterval",
     "monthOfEndOfOverallTimeInterval", "dayOfEndOfOverallTimeInterval", "hourOfEndOfOverallTimeInterval",
     "minuteOfEndOfOverallTimeInterval", "secondOfEndOfOverallTimeInterval", "numberOfTimeRange", "numberOfMissingInStatisticalProcess"},
    {"section5Length", NULL, "numberOfValues", "dataRepresentationTemplateNumber", "referenceValue", "binaryScaleFactor",
     "decimalScaleFactor", "bitsPerValue", "typeOfOriginalFieldValues"},
    {"section7Length", NULL},
};
static const int64_t counts[SECTIONS] = {16, 26, 27, 9, 2};

g2int g2c_fields(struct message *m) {
    g2int section0[3], section1[13], fields = 0, locals;
    check(g2_info(m->octets, section0, section1, &fields, &locals) == 0, "g2_info accepts");
    return fields;
}

gribfield *g2c_field(struct message *m, g2int k) {
    gribfield *read = NULL;
    check(g2_getfld(m->octets, k, 0, 0, &read) == 0, "g2_getfld accepts");
    return read;
}

uint64_t by_g2c(void *message) {
    uint64_t sum = 0;
    g2int fields = g2c_fields(message);
    for (g2int k = 1; k <= fields; k++) {
        gribfield *read = g2c_field(message, k);
        sum += (uint64_t)read->ipdtmpl[22];
        g2_free(read);
    }
    return sum;
}

uint64_t sum_by_keys(codes_handle *h) {
    long value = 0, sum = 0;
    for (int i = 0; i < SECTIONS; i++) {
        for (int64_t k = 0; k < counts[i]; k++) {
            if (keys[i][k] == NULL) continue;
            check(codes_get_long(h, keys[i][k], &value) == 0, "ecCodes has the key");
            sum += value;
        }
    }
    return (uint64_t)sum;
}

void check_counts(const struct values *ours) {
    for (int i = 0; i < SECTIONS; i++) check(ours->of[i][0] == counts[i], "skogmund_read gives as many values as there are fields");
}

void check_eccodes(codes_handle *h, const struct values *ours) {
    for (int i = 0; i < SECTIONS; i++) {
        for (int64_t k = 0; k < counts[i]; k++) {
            int64_t value = ours->of[i][1 + k];
            long theirs = 0;
            int failed = 0;
            if (keys[i][k] == NULL) continue;
            check(codes_get_long(h, keys[i][k], &theirs) == 0, keys[i][k]);
            check(codes_is_missing(h, keys[i][k], &failed) == (value == SKOGMUND_MISSING) && failed == 0, keys[i][k]);
            check(value == SKOGMUND_MISSING || value == theirs, keys[i][k]);
        }
    }
}

/* g2c has no missing values: it gives the number that all ones make. */
static void check_run(const g2int *theirs, g2int count, const int64_t *ours, const char *what) {
    for (g2int i = 0; i < count; i++) check(ours[i] == SKOGMUND_MISSING || ours[i] == theirs[i], what);
}

void check_g2c(const gribfield *theirs, const struct values *ours) {
    check(theirs->idsectlen == 13 && theirs->igdtlen == 19 && theirs->ipdtlen == 29 && theirs->idrtlen == 5, "g2c reads the same templates");
    check_run(theirs->idsect, 13, &ours->of[SECTION_1][3], "g2c gives the same section 1");
    check_run(theirs->igdtmpl, 19, &ours->of[SECTION_3][8], "g2c gives the same section 3");
    check_run(theirs->ipdtmpl, 23, &ours->of[SECTION_4][5], "g2c gives the same section 4");
    check_run(theirs->idrtmpl, 5, &ours->of[SECTION_5][5], "g2c gives the same section 5");
    check(theirs->ngrdpts == ours->of[SECTION_3][4] && theirs->ndpts == ours->of[SECTION_5][3], "g2c gives the same number of points");
}
