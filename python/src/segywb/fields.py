"""Names of header fields: those of segyio as constants, those of the program with their places."""

from __future__ import annotations

import re
from enum import IntEnum
from typing import Dict, Mapping, Optional, Tuple


class TraceField(IntEnum):
    """Fields of a trace header by the names of segyio. The value is the first byte, counted from 1."""

    TRACE_SEQUENCE_LINE = 1
    TRACE_SEQUENCE_FILE = 5
    FieldRecord = 9
    TraceNumber = 13
    EnergySourcePoint = 17
    CDP = 21
    CDP_TRACE = 25
    TraceIdentificationCode = 29
    NSummedTraces = 31
    NStackedTraces = 33
    DataUse = 35
    offset = 37
    ReceiverGroupElevation = 41
    SourceSurfaceElevation = 45
    SourceDepth = 49
    ReceiverDatumElevation = 53
    SourceDatumElevation = 57
    SourceWaterDepth = 61
    GroupWaterDepth = 65
    ElevationScalar = 69
    SourceGroupScalar = 71
    SourceX = 73
    SourceY = 77
    GroupX = 81
    GroupY = 85
    CoordinateUnits = 89
    WeatheringVelocity = 91
    SubWeatheringVelocity = 93
    SourceUpholeTime = 95
    GroupUpholeTime = 97
    SourceStaticCorrection = 99
    GroupStaticCorrection = 101
    TotalStaticApplied = 103
    LagTimeA = 105
    LagTimeB = 107
    DelayRecordingTime = 109
    MuteTimeStart = 111
    MuteTimeEND = 113
    TRACE_SAMPLE_COUNT = 115
    TRACE_SAMPLE_INTERVAL = 117
    GainType = 119
    InstrumentGainConstant = 121
    InstrumentInitialGain = 123
    Correlated = 125
    SweepFrequencyStart = 127
    SweepFrequencyEnd = 129
    SweepLength = 131
    SweepType = 133
    SweepTraceTaperLengthStart = 135
    SweepTraceTaperLengthEnd = 137
    TaperType = 139
    AliasFilterFrequency = 141
    AliasFilterSlope = 143
    NotchFilterFrequency = 145
    NotchFilterSlope = 147
    LowCutFrequency = 149
    HighCutFrequency = 151
    LowCutSlope = 153
    HighCutSlope = 155
    YearDataRecorded = 157
    DayOfYear = 159
    HourOfDay = 161
    MinuteOfHour = 163
    SecondOfMinute = 165
    TimeBaseCode = 167
    TraceWeightingFactor = 169
    GeophoneGroupNumberRoll1 = 171
    GeophoneGroupNumberFirstTraceOrigField = 173
    GeophoneGroupNumberLastTraceOrigField = 175
    GapSize = 177
    OverTravel = 179
    CDP_X = 181
    CDP_Y = 185
    INLINE_3D = 189
    CROSSLINE_3D = 193
    ShotPoint = 197
    ShotPointScalar = 201
    TraceValueMeasurementUnit = 203
    TransductionConstantMantissa = 205
    TransductionConstantPower = 209
    TransductionUnit = 211
    TraceIdentifier = 213
    ScalarTraceHeader = 215
    SourceType = 217
    SourceEnergyDirectionMantissa = 219
    SourceEnergyDirectionExponent = 223
    SourceMeasurementMantissa = 225
    SourceMeasurementExponent = 229
    SourceMeasurementUnit = 231
    UnassignedInt1 = 233
    UnassignedInt2 = 237


class BinField(IntEnum):
    """Fields of the binary header by the names of segyio. The value is the first byte in the file, counted from 1."""

    JobID = 3201
    LineNumber = 3205
    ReelNumber = 3209
    Traces = 3213
    AuxTraces = 3215
    Interval = 3217
    IntervalOriginal = 3219
    Samples = 3221
    SamplesOriginal = 3223
    Format = 3225
    EnsembleFold = 3227
    SortingCode = 3229
    VerticalSum = 3231
    SweepFrequencyStart = 3233
    SweepFrequencyEnd = 3235
    SweepLength = 3237
    Sweep = 3239
    SweepChannel = 3241
    SweepTaperStart = 3243
    SweepTaperEnd = 3245
    Taper = 3247
    CorrelatedTraces = 3249
    BinaryGainRecovery = 3251
    AmplitudeRecovery = 3253
    MeasurementSystem = 3255
    ImpulseSignalPolarity = 3257
    VibratoryPolarity = 3259
    ExtSamples = 3269
    SEGYRevision = 3501
    TraceFlag = 3503
    ExtendedHeaders = 3505


def _sizes(first_bytes: "list[int]", end: int) -> Dict[int, int]:
    """The sizes of fields that follow one another."""
    return {byte: behind - byte for byte, behind in zip(first_bytes, first_bytes[1:] + [end])}


_TRACE_SIZES = _sizes([int(one) for one in TraceField], 241)
_UNSIGNED = {115, 117, 3217, 3219, 3221, 3223, 3225, 3269}
_BINARY_SIZES = {int(one): 2 for one in BinField}
_BINARY_SIZES.update({3201: 4, 3205: 4, 3209: 4, 3269: 4})


def trace_place(field: TraceField) -> str:
    """The place of a field, as the program names it.

    >>> trace_place(TraceField.INLINE_3D)
    '@189:4'
    """
    return f"@{int(field)}:{_TRACE_SIZES[field]}" + ("u" if field in _UNSIGNED else "")


def binary_place(field: BinField) -> str:
    """The place of a field of the binary header, as the program names it.

    >>> binary_place(BinField.Interval)
    '@3217:2u'
    """
    return f"@{int(field)}:{_BINARY_SIZES[field]}" + ("u" if field in _UNSIGNED else "")


# The program's own names; six more are bound (`Volume.fields`).
TRACE_NAMES: Mapping[str, str] = {
    "sequence_line": "@1:4",
    "sequence_file": "@5:4",
    "field_record": "@9:4",
    "trace_in_record": "@13:4",
    "source_point": "@17:4",
    "ensemble": "@21:4",
    "trace_in_ensemble": "@25:4",
    "trace_code": "@29:2",
    "vertically_summed": "@31:2",
    "horizontally_stacked": "@33:2",
    "data_use": "@35:2",
    "distance": "@37:4",
    "receiver_elevation": "@41:4",
    "source_elevation": "@45:4",
    "source_depth": "@49:4",
    "receiver_datum": "@53:4",
    "source_datum": "@57:4",
    "source_water_depth": "@61:4",
    "group_water_depth": "@65:4",
    "elevation_scalar": "@69:2",
    "coordinate_scalar": "@71:2",
    "source_x": "@73:4",
    "source_y": "@77:4",
    "group_x": "@81:4",
    "group_y": "@85:4",
    "coordinate_units": "@89:2",
    "weathering_velocity": "@91:2",
    "subweathering_velocity": "@93:2",
    "source_uphole": "@95:2",
    "group_uphole": "@97:2",
    "source_static": "@99:2",
    "group_static": "@101:2",
    "total_static": "@103:2",
    "lag_a": "@105:2",
    "lag_b": "@107:2",
    "delay": "@109:2",
    "mute_start": "@111:2",
    "mute_end": "@113:2",
    "samples": "@115:2u",
    "interval": "@117:2u",
    "gain_type": "@119:2",
    "instrument_gain": "@121:2",
    "initial_gain": "@123:2",
    "correlated": "@125:2",
    "sweep_start": "@127:2",
    "sweep_end": "@129:2",
    "sweep_length": "@131:2",
    "sweep_type": "@133:2",
    "taper_start": "@135:2",
    "taper_end": "@137:2",
    "taper_type": "@139:2",
    "alias_frequency": "@141:2",
    "alias_slope": "@143:2",
    "notch_frequency": "@145:2",
    "notch_slope": "@147:2",
    "low_cut": "@149:2",
    "high_cut": "@151:2",
    "low_cut_slope": "@153:2",
    "high_cut_slope": "@155:2",
    "year": "@157:2",
    "day": "@159:2",
    "hour": "@161:2",
    "minute": "@163:2",
    "second": "@165:2",
    "time_basis": "@167:2",
    "weighting": "@169:2",
    "group_roll": "@171:2",
    "group_first": "@173:2",
    "group_last": "@175:2",
    "gap_size": "@177:2",
    "over_travel": "@179:2",
    "ensemble_x": "@181:4",
    "ensemble_y": "@185:4",
    "inline_number": "@189:4",
    "crossline_number": "@193:4",
    "shotpoint": "@197:4",
    "shotpoint_scalar": "@201:2",
    "measurement_unit": "@203:2",
    "transduction_mantissa": "@205:4",
    "transduction_exponent": "@209:2",
    "transduction_unit": "@211:2",
    "device_identifier": "@213:2",
    "time_scalar": "@215:2",
    "source_type": "@217:2",
    "source_energy_vertical": "@219:2",
    "source_energy_crossline": "@221:2",
    "source_energy_inline": "@223:2",
    "source_measure_mantissa": "@225:4",
    "source_measure_exponent": "@229:2",
    "source_measure_unit": "@231:2",
    "ext_sequence_line": "@1.1:8u",
    "ext_sequence_file": "@1.9:8u",
    "ext_field_record": "@1.17:8",
    "ext_ensemble": "@1.25:8",
    "ext_samples": "@1.137:4u",
    "ext_nanoseconds": "@1.141:4",
    "ext_cable": "@1.153:4",
    "ext_count": "@1.157:2u",
    "ext_last_trace": "@1.159:2",
}
BINARY_NAMES: Mapping[str, str] = {
    "job": "@3201:4",
    "line": "@3205:4",
    "reel": "@3209:4",
    "traces_per_ensemble": "@3213:2",
    "auxiliary_per_ensemble": "@3215:2",
    "interval": "@3217:2u",
    "samples": "@3221:2u",
    "format": "@3225:2u",
    "ensemble_fold": "@3227:2",
    "sorting": "@3229:2",
    "measurement": "@3255:2",
    "extended_samples": "@3269:4u",
    "byte_order": "@3297:4u",
    "major": "@3501:1u",
    "minor": "@3502:1u",
    "fixed_flag": "@3503:2",
    "text_count": "@3505:2",
    "extensions": "@3507:4",
    "trace_count": "@3513:8u",
    "first_trace": "@3521:8u",
    "trailer": "@3529:4",
}

_PLACE = re.compile(r"@(?:\d+\.)?\d+:([12348])(u?)\Z")


def kind(place: str) -> Optional[Tuple[int, bool]]:
    """The bytes of a place, and whether its number is unsigned; nothing where it is no place.

    >>> kind("@115:2u"), kind("@189:4"), kind("inline")
    ((2, True), (4, False), None)
    """
    found = _PLACE.match(place)
    return (int(found[1]), found[2] == "u") if found else None
