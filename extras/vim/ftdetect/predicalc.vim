" Sheets, their commands and certificates of PrediCalc.
autocmd BufNewFile,BufRead *.sheet,*.commands,*.certificate setfiletype predicalc
