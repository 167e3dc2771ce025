"""Imports an existing land register: reads it, predicts every reply of `land`, executes the acts, and compares the result.

sources    tables of a folder of CSV files, or of any format that ogr2ogr reads
mapping    the names of columns and code words in these tables
records    the rows as records of the register: parties, groups, units, parcels, entries, mandates
shares     fractions, and whether a list of them sums to one
outlines   well-known text: conversion from the source, and the rules of the register for a ring
rules      the numbers in replies: their meaning and the remedy
findings   the table of the dry run
plan       the acts in order, each with its predicted reply
client     one connection to the register, pipelined
journal    which act created which numbers
resume     finds out from the register which acts after the journal's end were executed
runner     executes the acts
compare    compares extracts and views with the source
progress   a progress line on a terminal, plain lines otherwise
cli        the commands
"""
