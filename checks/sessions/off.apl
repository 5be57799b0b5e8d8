)OFF
#
