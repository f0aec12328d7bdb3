#!/bin/bash
if [ "$1" = a ]
  echo "no then"
fi
