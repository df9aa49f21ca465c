# Completion of the words of snd in bash. A name is completed as a file's.
_snd() {
    local typed=${COMP_LINE:0:COMP_POINT} words
    typed=${typed##* }
    COMPREPLY=()
    case $COMP_CWORD:${COMP_WORDS[1]}:$typed in
        1:*) words="info convert concat interleave deinterleave metadata-set gen import export salvage script --help --version" ;;
        2:script:*) words="--auto" ;;
        2:import:* | 2:export:*) words="raw vox pvf" ;;
        3:import:*)
            [ "${COMP_WORDS[2]}" = raw ] || return
            words="pcm_u8 pcm_s8 pcm_16_le pcm_16_be pcm_24_le pcm_24_be pcm_32_le pcm_32_be ulaw alaw"
            ;;
        2:info:-* | 2:concat:-* | 2:deinterleave:-* | 2:gen:-* | 2:salvage:-*) words= ;;
        # bash takes what stands behind an equals sign for the word to be completed
        *:convert:-endian=*) words="little big" ;;
        *:convert:-*=*) return ;;
        *:convert:-*) words="-pcmu8 -pcms8 -pcm16 -pcm24 -pcm32 -ulaw -alaw -ima-adpcm -ms-adpcm -endian= -override-sample-rate= -rack=" ;;
        *:interleave:-*) words="-o" ;;
        *:metadata-set:-*) words="--str-title --str-artist --str-comment --str-copyright --str-date --str-album --bext-description --bext-originator --bext-orig-ref --bext-orig-date --bext-orig-time --bext-time-ref --bext-coding-hist" ;;
        *) return ;;
    esac
    # as the only word behind a command
    [ "$COMP_CWORD" != 2 ] || words+=" --help"
    mapfile -t COMPREPLY < <(compgen -W "$words" -- "${typed##*=}")
    [[ ${COMPREPLY[*]} != *= ]] || compopt -o nospace
}
complete -o default -F _snd snd
