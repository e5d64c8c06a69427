with Ada.Finalization; with Ada.Text_IO;
procedure Main is
   type Coin is record Worth : Integer := 1; end record;
   type Slot is access Coin;
   type Purse is new Ada.Finalization.Controlled with record Inside : Slot; end record;
   overriding procedure Adjust (Object : in out Purse);
   overriding procedure Adjust (Object : in out Purse) is
      Hand : Slot;
   begin
      Object.Inside := new Coin'(Worth => 5);
      Hand := Object.Inside;
      Object.Inside := null;
      Hand.Worth := Hand.Worth + 2;
      Object.Inside := Hand;
   exception
      when others => Object.Inside := null;
   end Adjust;
   Mine  : Purse;
   Yours : Purse;
begin
   Yours := Mine;
   Ada.Text_IO.Put_Line (Integer'Image (Yours.Inside.Worth));
end Main;
