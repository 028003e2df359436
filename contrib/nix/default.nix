# SPDX-License-Identifier: Apache-2.0 OR MIT
# What `make dist` left in the folder of the sources, for Nix: nix-build contrib/nix, or --arg src and another archive.
{
  pkgs ? import <nixpkgs> { },
  version ? pkgs.lib.fileContents ../../VERSION,
  src ? ../.. + "/orgviews-${version}-x86_64-linux.tar.xz",
}:
pkgs.stdenv.mkDerivation {
  pname = "orgviews";
  inherit version src;
  nativeBuildInputs = [ pkgs.autoPatchelfHook ];
  installPhase = "mkdir $out && cp -r bin share $out/";
  meta = {
    description = "Proved agendas, lists and clock tables of Org files";
    license = with pkgs.lib.licenses; [ asl20 mit ];
    sourceProvenance = [ pkgs.lib.sourceTypes.binaryNativeCode ];
    platforms = [ "x86_64-linux" ];
  };
}
