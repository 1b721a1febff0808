# Completion of derguard-lower for fish. It goes to share/fish/vendor_completions.d.

complete -c derguard-lower -s h -l help -d 'show help'
complete -c derguard-lower -l message -x -d 'a type that is sent as a message'
complete -c derguard-lower -l bindings -r -F -d 'what the author says of holes, depths and losses'
complete -c derguard-lower -l draft -r -F -d 'write bindings to start from'
complete -c derguard-lower -s o -l output -r -F -d 'where texts, policy and report go'
