# Makes us-life-2010-male.xml: the yearly death rates of males in the United States in 2010, as a table that `life` reads.
# They stand in the array survexp.us of the R package survival (Debian: r-cran-survival), as daily hazards
# -log(1 - q)/365.25, where q is the rate of one year "as reported in the original tables from the US Census", which are in
# the public domain. The last age gets the rate 1, as valuation tables end.
#
# usage: Rscript us_life_table.R > us-life-2010-male.xml
suppressMessages(library(survival))
hazard <- unclass(survexp.us)[, "male", "2010"]
rate <- round(1 - exp(-365.25 * hazard), 6)
rate[length(rate)] <- 1
ages <- seq_along(rate) - 1
cat('<?xml version="1.0" encoding="utf-8"?>',
    "<XTbML>",
    "  <ContentClassification>",
    "    <TableName>United States Life Table 2010, males (population)</TableName>",
    "    <TableDescription>Rates of the US Census tables, from survexp.us of the R package survival; age 109 set to 1",
    "    </TableDescription>",
    "  </ContentClassification>",
    "  <Table>",
    "    <MetaData><ScalingFactor>0</ScalingFactor></MetaData>",
    "    <Values>",
    "      <Axis>",
    sprintf('        <Y t="%d">%s</Y>', ages, formatC(rate, digits = 6, format = "f")),
    "      </Axis>",
    "    </Values>",
    "  </Table>",
    "</XTbML>", sep = "\n")
cat("\n")
