with Ada.Finalization; with Ada.Unchecked_Deallocation;
procedure Main is
type Part is new Ada.Finalization.Controlled with null record;
type Whole is record Inner : Part; end record;
type Link is access Whole;
procedure Free is new Ada.Unchecked_Deallocation (Whole, Link);
procedure Finalize (Object : in out Part);
procedure Finalize (Object : in out Part) is begin null; end Finalize;
begin null; end Main;
