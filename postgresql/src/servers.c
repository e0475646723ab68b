/*
 * What differs between the versions of the server that the extension compiles for, 13 to 18. Everything else calls what
 * all of them have.
 */
#include "twpg.h"

#include "miscadmin.h"
#include "utils/tuplestore.h"

/* Since version 14, the server makes a numeric from an integer. Before, it goes through its digits. */
#if PG_VERSION_NUM >= 140000

Datum twpg_numeric_of(int64 number) {
    return NumericGetDatum(int64_to_numeric(number));
}

Datum twpg_numeric_of_hundredths(int64 hundredths) {
    return NumericGetDatum(int64_div_fast_to_numeric(hundredths, 2));
}

#else

Datum twpg_numeric_of(int64 number) {
    return twpg_numeric_of_digits(psprintf(INT64_FORMAT, number));
}

Datum twpg_numeric_of_hundredths(int64 hundredths) {
    return twpg_numeric_of_digits(psprintf(INT64_FORMAT ".%02d", hundredths / 100, (int)(hundredths % 100)));
}

#endif

Datum twpg_numeric_of_digits(const char *digits) {
    return DirectFunctionCall3(numeric_in, CStringGetDatum(digits), ObjectIdGetDatum(InvalidOid), Int32GetDatum(-1));
}

/* Begins the rows that a function returns, as the query expects them. To look the columns up in each call would leave
   memory behind until the query ends. */
#if PG_VERSION_NUM >= 150000

ReturnSetInfo *twpg_begin_rows(FunctionCallInfo fcinfo) {
    InitMaterializedSRF(fcinfo, MAT_SRF_USE_EXPECTED_DESC);
    return (ReturnSetInfo *)fcinfo->resultinfo;
}

#else

ReturnSetInfo *twpg_begin_rows(FunctionCallInfo fcinfo) {
    ReturnSetInfo *result = (ReturnSetInfo *)fcinfo->resultinfo;
    MemoryContext before;
    bool random_access;

    if (result == NULL || !IsA(result, ReturnSetInfo) || result->expectedDesc == NULL) {
        ereport(ERROR, (errcode(ERRCODE_FEATURE_NOT_SUPPORTED),
                        errmsg("set-valued function called in context that cannot accept a set")));
    }
    if ((result->allowedModes & SFRM_Materialize) == 0) {
        ereport(ERROR, (errcode(ERRCODE_SYNTAX_ERROR),
                        errmsg("materialize mode required, but it is not allowed in this context")));
    }
    random_access = (result->allowedModes & SFRM_Materialize_Random) != 0;
    before = MemoryContextSwitchTo(result->econtext->ecxt_per_query_memory);
    result->setDesc = CreateTupleDescCopy(result->expectedDesc);
    result->setResult = tuplestore_begin_heap(random_access, false, work_mem);
    result->returnMode = SFRM_Materialize;
    MemoryContextSwitchTo(before);
    return result;
}

#endif
